//! The stored vectors: the program `replay` has the oracle's vector file for its `stdin`, as it was made.
use crate::progress::Progress;
use crate::say::say;
use crate::table::Line;
use crate::{End, Ended, ours};
use oracle::{paper, replay, rp, vectors};
use std::path::{Path, PathBuf};

/// The file: `oracle vectors 1 FILE 1`, and the key hash of its bytes with seed 0.
const SEED: u64 = 1;
const SCALE: u64 = 1;
const DIGEST: u64 = 0x4994_23f0_f58a_902e;

/// The file made anew.
fn fresh() -> Vec<u8> {
    let _waiting = Progress::waiting("vectors made anew");
    vectors::make(SEED, SCALE)
}

/// The cases of a file that was made, op and bytes.
fn cases(file: &[u8]) -> Vec<(u8, &[u8])> {
    replay::cases(file).expect("a file is made whole")
}

/// The repository's folder.
pub fn repository() -> &'static Path {
    Path::new(env!("CARGO_MANIFEST_DIR")).parent().unwrap()
}
/// Where the file is stored.
fn place() -> PathBuf {
    repository().join("crates/replay/stdin")
}

/// A made case of the file: its seed and size, then the number and the words it has to come to.
struct Made {
    seed: u64,
    n: usize,
    number: u64,
    words: Vec<u64>,
}

/// What a made case comes to by the boundary: the number and the words.
type Run = fn(&Made) -> (u64, Vec<u64>);

/// The made cases of an op.
fn made(file: &[u8], op: u8) -> Vec<Made> {
    let word = |b: &[u8]| u64::from_le_bytes(b[..8].try_into().unwrap());
    let read = |c: &[u8]| Made {
        seed: word(c),
        n: u32::from_le_bytes(c[8..12].try_into().unwrap()) as usize,
        number: c[12] as u64,
        words: c[13..].chunks(8).map(word).collect(),
    };
    cases(file).into_iter().filter(|(of, _)| *of == op).map(|(_, case)| read(case)).collect()
}

/// Op 19 by the boundary: the number, and the body's length, digest and seed.
fn finished(c: &Made) -> (u64, Vec<u64>) {
    let arena = vectors::gen_arena(c.seed, c.n as u64);
    let mut out = vec![1; 32 + 4 * c.n.div_ceil(3) + 12 * c.n + arena.len()];
    let mut length = [0];
    let number = ours::finish(&arena, &mut out, &mut vec![1; 2 * c.n], &mut vec![1; 8 * c.n + 8], &mut length);
    if number > 0 {
        return (number, vec![0; 3]);
    }
    let body = &out[..length[0] as usize];
    (number, vec![length[0], rp::hash(body, 0), u64::from_le_bytes(body[8..16].try_into().unwrap())])
}

/// Op 31 by the boundary: the number, and the filter's length and digest.
fn built(c: &Made) -> (u64, Vec<u64>) {
    let mut hashes = vectors::gen_hashes(c.seed, c.n as u64);
    let cells = if c.n == 0 { 0 } else { paper::sizing(c.n as u64).2 as usize };
    let (mut wide, mut narrow) = (vec![1; cells + c.n], vec![1; 2 * cells + c.n]);
    let mut out = vec![1; 48 + cells];
    let mut length = [0];
    let number = ours::filter_build(&mut hashes, &mut wide, &mut narrow, &mut out, &mut length);
    if number > 0 {
        return (number, vec![0; 2]);
    }
    (number, vec![length[0], rp::hash(&out[..length[0] as usize], 0)])
}

/// The made cases of both ops, those too large for a program among them, by the boundary.
fn by_the_boundary(file: &[u8]) -> Line {
    Line::timed("stored, by the boundary", |line| {
        let ops: [(u8, Run); 2] = [(0x19, finished), (0x31, built)];
        for (op, run) in ops {
            let all = made(file, op);
            let progress = Progress::new(&format!("stored, op {op:#04x}"), all.len() as u64);
            for c in &all {
                let ours = run(c);
                line.count(ours == (c.number, c.words.clone()), || {
                    format!("op {op:#04x}, seed {}, n {}: {ours:?}, stored {} {:?}", c.seed, c.n, c.number, c.words)
                });
                progress.step();
            }
            let large = all.iter().filter(|c| c.n >= 65_535).count();
            line.notes.push(format!("op {op:#04x}: {}, {large} of them of 65,535 and more", all.len()));
        }
    })
}

/// The vectors made anew, against the digest recorded and the file stored; then the made cases.
pub fn check() -> Vec<Line> {
    let mut made = Vec::new();
    let anew = Line::timed("vectors made anew", |line| {
        made = fresh();
        line.cases = cases(&made).len() as u64;
        let digest = rp::hash(&made, 0);
        if digest != DIGEST {
            line.differ += 1;
            line.notes.push(format!("not the file recorded: {} bytes, digest {digest:#018x}", made.len()));
        }
        let stored = std::fs::read(place()).unwrap_or_default();
        if stored != made {
            line.differ += 1;
            line.notes.push(format!(
                "{} is another file: {} bytes, wanted {}",
                place().display(),
                stored.len(),
                made.len()
            ));
        }
    });
    vec![anew, by_the_boundary(&made)]
}

/// Writes the `stdin` of `replay`.
pub fn write() -> Ended {
    let made = fresh();
    std::fs::write(place(), &made).map_err(|e| format!("{}: {e}", place().display()))?;
    say!("crates/replay/stdin: {} bytes, {} cases", made.len(), cases(&made).len());
    Ok(End::Same)
}
