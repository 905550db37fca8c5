//! The filters that are read and asked: whole ones, damaged ones, and such with each field at its edge.
use super::drawn;
use oracle::{Rng, paper, rf};

fn damaged(r: &mut Rng, bytes: &mut Vec<u8>) {
    let fields = [0u32, 1, 2, 3, 262_144, 524_288, u32::MAX, 1 << 31];
    match r.below(10) {
        0 => bytes[r.below(48) as usize] ^= 1 << r.below(8),
        1 => bytes.truncate(r.below(bytes.len() as u64 + 1) as usize),
        2 => bytes.push(0),
        3 => {
            let at = 16 + 4 * r.below(8) as usize;
            bytes[at..at + 4].copy_from_slice(&fields[r.below(8) as usize].to_le_bytes());
        }
        _ => {}
    }
}

/// A Fuse header with these fields, and so many cells.
fn fuse(keys: u64, segment: u32, count: u64, cells: u32, again: u32, length: usize) -> Vec<u8> {
    let mut bytes = b"KIBANFL2\x01\x02\x01\x08\x30\0\0\0".to_vec();
    bytes.extend(keys.to_le_bytes());
    bytes.extend(7u64.to_le_bytes());
    [segment, count as u32, cells, again].iter().for_each(|x| bytes.extend(x.to_le_bytes()));
    bytes.extend((0..length).map(|i| paper::mix(i as u64) as u8));
    bytes
}

/// Positive, whole and with a cell; no byte; Fuse at each edge of its fields, and one past it.
pub fn fixed() -> Vec<Vec<u8>> {
    let positive = paper::positive();
    let most = u32::MAX as u64;
    let fuses = [
        (1, 1, 1, 4, 4, 4),
        (0, 1, 1, 4, 4, 4),
        (most, 1, 1, 4, 4, 4),
        (most + 1, 1, 1, 4, 4, 4),
        (u64::MAX, 1, 1, 4, 4, 4),
        (1, 1, 0, 3, 3, 3),
        (1, 1, 1, 4, 5, 4),
        (1, 1, 1, 5, 4, 4),
        (1, 1, 1, 4, 4, 3),
        (1, 1, 1, 4, 4, 5),
        (1, 0, 1, 0, 0, 0),
        (1, 3, 1, 12, 12, 12),
        (1, 6, 2, 30, 30, 30),
        (1, 262_144, 1, 1 << 20, 1 << 20, 1 << 20),
        (1, 524_288, 1, 1 << 21, 1 << 21, 1 << 21),
        (1, 262_144, 16_381, 0, 0, 0),
        (1, 1, most, 2, 2, 2),
        (1, 1 << 31, 1, 0, 0, 0),
    ];
    let fuses = fuses.map(|(keys, segment, count, cells, again, n)| fuse(keys, segment, count, cells, again, n));
    [positive.clone(), [positive, vec![0]].concat(), Vec::new()].into_iter().chain(fuses).collect()
}

/// A filter, whole or damaged, and hashes to ask it for: ten of its own, eight others.
pub fn draw(r: &mut Rng) -> (Vec<u8>, Vec<u64>) {
    let mut hashes = drawn::hashes(r);
    let mut bytes = rf::Filter::build(&mut hashes).encode();
    damaged(r, &mut bytes);
    hashes.truncate(10);
    (0..8).for_each(|_| hashes.push(r.next()));
    (bytes, hashes)
}
