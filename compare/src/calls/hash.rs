//! kiban_hash.
use super::Call;
use crate::{ours, theirs};
use oracle::Rng;
use std::fmt;

pub struct Hash;

/// A key that starts at any place of its buffer, so at any alignment.
pub struct Case {
    buffer: Vec<u8>,
    start: usize,
    seed: u64,
}

impl Case {
    fn key(&self) -> &[u8] {
        &self.buffer[self.start..]
    }
}

impl fmt::Debug for Case {
    fn fmt(&self, f: &mut fmt::Formatter) -> fmt::Result {
        write!(f, "seed {:#x}, key of {} bytes {}", self.seed, self.key().len(), oracle::hex(self.key()))
    }
}

fn length(r: &mut Rng) -> usize {
    (match r.below(100) {
        0 => r.below(20_000),
        1..10 => (8 << r.below(7)) + r.below(3) - 1,
        10..30 => r.below(300),
        _ => r.below(41),
    }) as usize
}

impl Call for Hash {
    type Case = Case;
    type Answer = u64;
    const NAME: &'static str = "kiban_hash";

    /// Every length to 300 and the greatest that a key may have, in zeros, in ones and in bytes that rise; with seeds 0 and 2^64 - 1.
    fn fixed() -> Vec<Case> {
        let lengths = (0..300).chain([65_536, 1_048_575, 1_048_576, 1_048_577]);
        let fillings: [fn(usize) -> u8; 3] = [|_| 0, |_| 255, |i| (i % 251) as u8];
        lengths
            .flat_map(|l| fillings.map(|byte| (0..l).map(byte).collect::<Vec<u8>>()))
            .flat_map(|buffer| [0, u64::MAX].map(|seed| Case { buffer: buffer.clone(), start: 0, seed }))
            .collect()
    }
    fn draw(r: &mut Rng) -> Case {
        let start = r.below(9) as usize;
        let length = length(r);
        let buffer = match r.below(8) {
            0 => (0..start + length).map(|_| if r.below(6) == 0 { r.next() as u8 } else { 0 }).collect(),
            _ => r.bytes(start + length),
        };
        let seed = if r.below(8) == 0 { r.below(3) } else { r.next() };
        Case { buffer, start, seed }
    }
    fn ours(case: &Case) -> u64 {
        ours::hash(case.key(), case.seed)
    }
    fn theirs(case: &Case) -> u64 {
        theirs::hash(case.key(), case.seed)
    }
}
