//! `beside sample DIR [KEYS]`: a plant's files to try the tool on, made by the old Rust. sample/ stores those of the small plant.
use crate::say::say;
use crate::{End, Ended};
use oracle::{Kind, Rng, rf, rp};
use std::path::Path;

/// A wash: its key, and its versions, newest first: sequence and value, none for a tombstone.
type Wash = (String, Vec<(u64, Option<String>)>);

/// Eight washes: the second one was corrected, the fourth withdrawn, the sixth withdrawn and entered again.
fn small() -> Vec<Wash> {
    let washes: [(&str, &[(u64, &str)]); 8] = [
        ("2026-03-02 05:10 tram 2041", &[(11, "litres 184")]),
        ("2026-03-02 05:40 tram 2017", &[(19, "litres 179"), (12, "litres 1790")]),
        ("2026-03-02 06:05 tram 2102", &[(13, "litres 201")]),
        ("2026-03-03 05:15 tram 2041", &[(20, ""), (14, "litres 186")]),
        ("2026-03-03 05:50 tram 2033", &[(15, "litres 0")]),
        ("2026-03-04 05:10 tram 2017", &[(22, "litres 177"), (21, ""), (16, "litres 771")]),
        ("2026-03-04 05:45 tram 2102", &[(17, "litres 203")]),
        ("2026-03-05 05:20 tram 2041", &[(18, "litres 190")]),
    ];
    let version = |&(sequence, value): &(u64, &str)| (sequence, (!value.is_empty()).then(|| value.into()));
    washes.iter().map(|(key, versions)| (key.to_string(), versions.iter().map(version).collect())).collect()
}

/// So many washes with one to three versions, of every tenth the newest a tombstone.
fn drawn(keys: u64) -> Vec<Wash> {
    let mut r = Rng(keys);
    let wash = |i| {
        let newest = 10 + r.below(1 << 40);
        let versions = (0..1 + r.below(3)).map(|v| (newest - v, Some(format!("litres {}", r.below(400)))));
        let mut versions: Vec<_> = versions.collect();
        if r.below(10) == 0 {
            versions[0].1 = None;
        }
        (format!("2026-{i:06} tram {}", 2000 + r.below(150)), versions)
    };
    (0..keys).map(wash).collect()
}

/// The index with its trailer, and the data.
fn files(washes: &[Wash]) -> Result<(Vec<u8>, Vec<u8>), String> {
    let (mut builder, mut data) = (rp::Legacy::new(), Vec::new());
    for (key, versions) in washes {
        for (i, (sequence, value)) in versions.iter().enumerate() {
            let (kind, bytes) = value.as_ref().map_or((Kind::Tombstone, &[][..]), |v| (Kind::Put, v.as_bytes()));
            let patch = builder.add(kind, key.as_bytes(), bytes, *sequence, i == 0)?;
            builder.set_value_offset(patch, data.len() as u64);
            data.extend(bytes);
        }
    }
    Ok((builder.finish_file()?, data))
}

/// Drawn numbers that stand for the store's XXH3 of each key, which is what its filters take. That hash is not among the given files, and
/// the index's own (`rp::hash`) is another. Drawn from where `filter::drawn`, which draws the hashes that are no members, does not start.
fn hashes(keys: usize) -> Vec<u64> {
    let mut r = Rng(!(keys as u64));
    (0..keys).map(|_| r.next()).collect()
}

/// Writes a file into the folder, and says so.
fn write(dir: &str, name: &str, bytes: &[u8]) -> Result<(), String> {
    let path = Path::new(dir).join(name);
    std::fs::write(&path, bytes).map_err(|e| format!("{}: {e}", path.display()))?;
    say!("{}: {} bytes", path.display(), bytes.len());
    Ok(())
}

/// Writes wash.idx, wash.dat, wash.hashes and wash.filter; the small plant where no number of keys is given.
pub fn run(dir: &str, keys: u64) -> Ended {
    if keys > 65_536 {
        return Err(format!("{keys} keys: a sample has at most 65,536"));
    }
    let washes = if keys == 0 { small() } else { drawn(keys) };
    let ((index, data), mut hashes) = (files(&washes)?, hashes(washes.len()));
    std::fs::create_dir_all(dir).map_err(|e| format!("{dir}: {e}"))?;
    write(dir, "wash.idx", &index)?;
    write(dir, "wash.dat", &data)?;
    write(dir, "wash.hashes", &hashes.iter().flat_map(|h| h.to_le_bytes()).collect::<Vec<u8>>())?;
    write(dir, "wash.filter", &rf::Filter::build(&mut hashes).encode())?;
    Ok(End::Same)
}
