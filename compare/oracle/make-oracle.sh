#!/bin/sh
# make-oracle.sh DOCS_SRC OUT: derives the cargo package of the oracle from the given Rust.
# Every edit of the given text is made here; OUT/EDITS.diff shows them. A file of OUT is written only where it changes.
set -eu
if [ ! -f "$1/src/sstable/point.rs" ]; then
    echo "make-oracle.sh: the given Rust is not at $1 (no src/sstable/point.rs there): name its folder, make DOCS_SRC=.." >&2; exit 1
fi
given=$(cd "$1/src" && pwd)
here=$(cd "$(dirname "$0")" && pwd)
mkdir -p "$2/src/sstable/point" "$2/probes"
out=$(cd "$2" && pwd)
: > "$out/.made"

# Standard input into a file of OUT, if it differs from what stands there.
put() {
    cat > "$out/.new"
    echo "$1" >> "$out/.made"
    if ! cmp -s "$out/.new" "$out/$1"; then mv "$out/.new" "$out/$1"; fi
}
# The part of a given file from the line that fits $2 to the next that fits $3. It has to be there.
cut_out() {
    sed -n "/$2/,/$3/p" "$given/$1" > "$out/.cut"
    if [ ! -s "$out/.cut" ]; then echo "make-oracle.sh: $1 has no '$2'" >&2; exit 1; fi
    cat "$out/.cut"
}
# A given file with one line more, which lets a module of ours see its private items.
with_probe() { cat "$given/sstable/$1.rs"; echo "#[path = \"../../probes/$1_probe.rs\"] pub mod probe;"; }

# 1. Given files, byte for byte.
for f in bloom cache crc32 limits sstable/block sstable/point/compact; do put "src/$f.rs" < "$given/$f.rs"; done

# 2. point.rs with THE ONE EDIT, the stable sort; filter.rs and mod.rs as given.
if [ "$(grep -c 'order\.sort_unstable_by_key(' "$given/sstable/point.rs")" != 1 ]; then
    echo "make-oracle.sh: point.rs does not have its one sort_unstable_by_key" >&2; exit 1
fi
with_probe point | sed 's/order\.sort_unstable_by_key(/order.sort_by_key(/' | put src/sstable/point.rs
with_probe filter | put src/sstable/filter.rs
{ cat "$given/sstable/mod.rs"; echo 'pub use filter::probe as filter_probe;'; } | put src/sstable/mod.rs

# 3. reader.rs needs the file cache: the three items that point.rs uses are cut out verbatim.
{
    echo '//! Cut verbatim from reader.rs: Found, verify_trailer, verify_typed_trailer; the rest are shims.'
    echo 'use super::{Kind, SstError}; use crate::crc32;'
    cut_out sstable/reader.rs '^pub struct Found {' '^}'
    cut_out sstable/reader.rs '^pub(super) fn verify_trailer' '^}'
    cut_out sstable/reader.rs '^fn verify_typed_trailer' '^}'
    cat "$here/shims/reader_types.rs"
} | put src/sstable/reader.rs

# 4. Sizing: the statements of Fuse8::build from `let n` to `let cells`, verbatim, as a function of the length alone.
{
    echo '//! Cut verbatim from filter.rs: the statements from `let n = hashes.len()` to `let cells`.'
    echo 'pub struct Len(pub usize); impl Len { fn len(&self) -> usize { self.0 } }'
    echo '#[inline(never)] pub fn sizing(hashes: &Len) -> Option<(usize, usize, usize)> {'
    cut_out sstable/filter.rs 'let n = hashes.len().max(2) as f64;' 'let cells = '
    echo '        Some((segment, segments, cells))'
    echo '}'
} | put src/sizing_cut.rs

# 5. Shims for what is not given, and our own files.
for f in counter range_cache xxh3 crc32_pclmul; do put "src/$f.rs" < "$here/shims/$f.rs"; done
for f in builder separator; do put "src/sstable/$f.rs" < "$here/shims/$f.rs"; done
for f in "$here"/probes/*.rs; do put "probes/${f##*/}" < "$f"; done
for f in "$here"/tool/*.rs; do put "src/${f##*/}" < "$f"; done

# 6. The package. The cfg `test` makes construct, legacy and finish_legacy of point.rs reachable without touching their text.
put Cargo.toml <<'T'
[package]
name = "oracle"
version = "0.0.0"
edition = "2024"
[lints.rust]
explicit_builtin_cfgs_in_flags = "allow"
dead_code = "allow"
unused = "allow"
T
put build.rs <<'T'
fn main() {
    println!("cargo::rerun-if-changed=build.rs");
    println!("cargo::rustc-cfg=test");
}
T

for f in point filter mod; do diff -u "$given/sstable/$f.rs" "$out/src/sstable/$f.rs" || true; done | put EDITS.diff
# What an earlier run left and this one did not make.
(cd "$out" && find src probes -type f) | grep -vxF -f "$out/.made" | while read -r f; do rm "$out/$f"; done
rm -f "$out/.new" "$out/.cut" "$out/.made"
