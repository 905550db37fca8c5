//! kiban_mix.
use super::Call;
use crate::{ours, theirs};
use oracle::Rng;

pub struct Mix;

impl Call for Mix {
    type Case = u64;
    type Answer = u64;
    const NAME: &'static str = "kiban_mix";

    /// 0, the powers of two and their neighbours.
    fn fixed() -> Vec<u64> {
        (0..64).map(|k| 1u64 << k).flat_map(|p| [p - 1, p, p.wrapping_add(p - 1)]).collect()
    }
    /// Any number, with few or many ones.
    fn draw(r: &mut Rng) -> u64 {
        match r.below(4) {
            0 => r.next() & r.next() & r.next(),
            1 => r.next() | r.next() | r.next(),
            _ => r.next(),
        }
    }
    fn ours(h: &u64) -> u64 {
        ours::mix(*h)
    }
    fn theirs(h: &u64) -> u64 {
        theirs::mix(*h)
    }
}
