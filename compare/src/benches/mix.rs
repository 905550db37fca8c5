//! kiban_mix: each run mixes what the last one gave.
use super::Bench;
use crate::{ours, theirs};

pub struct Mix;

impl Bench for Mix {
    type Input = u64;
    const NAME: &'static str = "mix";
    const SIZES: &'static [usize] = &[8];
    const OF: &'static str = "bytes";

    fn input(_: usize) -> u64 {
        1
    }
    fn ours(h: &mut u64) {
        *h = ours::mix(*h);
    }
    fn theirs(h: &mut u64) {
        *h = theirs::mix(*h);
    }
}
