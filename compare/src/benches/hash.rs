//! kiban_hash: the last hash is the next seed.
use super::Bench;
use crate::{ours, theirs};
use oracle::Rng;

pub struct Hash;

pub struct Input {
    key: Vec<u8>,
    seed: u64,
}

impl Bench for Hash {
    type Input = Input;
    const NAME: &'static str = "hash";
    const SIZES: &'static [usize] = &[0, 1, 5, 7, 8, 13, 16, 31, 64, 1_024];
    const OF: &'static str = "bytes";

    fn input(size: usize) -> Input {
        Input { key: Rng(size as u64).bytes(size), seed: 1 }
    }
    fn ours(input: &mut Input) {
        input.seed = ours::hash(&input.key, input.seed);
    }
    fn theirs(input: &mut Input) {
        input.seed = theirs::hash(&input.key, input.seed);
    }
}
