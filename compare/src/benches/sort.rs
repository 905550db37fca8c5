//! Sorting hashes, against `sort_unstable`: random, rising, falling, equal, and two orders against its pivots.
use super::Bench;
use crate::{ours, worst};
use oracle::Rng;

pub struct Input {
    from: Vec<u64>,
    hashes: Vec<u64>,
}

fn drawn(size: usize, seed: usize) -> Vec<u64> {
    let mut r = Rng((size + seed) as u64);
    (0..size).map(|_| r.next()).collect()
}

/// The hashes to sort, by their order.
trait Order {
    const NAME: &'static str;
    /// Whether each round has hashes of its own; else its order is no secret.
    const FRESH: bool = false;
    fn of(random: Vec<u64>) -> Vec<u64>;
}
pub struct Random;
pub struct Rising;
pub struct Falling;
pub struct Equal;
pub struct Worst;
pub struct Alternating;
impl Order for Random {
    const NAME: &'static str = "sort, random";
    const FRESH: bool = true;
    fn of(random: Vec<u64>) -> Vec<u64> {
        random
    }
}
impl Order for Rising {
    const NAME: &'static str = "sort, rising";
    fn of(mut random: Vec<u64>) -> Vec<u64> {
        random.sort_unstable();
        random
    }
}
impl Order for Falling {
    const NAME: &'static str = "sort, falling";
    fn of(random: Vec<u64>) -> Vec<u64> {
        let mut sorted = Rising::of(random);
        sorted.reverse();
        sorted
    }
}
impl Order for Equal {
    const NAME: &'static str = "sort, equal";
    fn of(random: Vec<u64>) -> Vec<u64> {
        vec![random[0]; random.len()]
    }
}
impl Order for Worst {
    const NAME: &'static str = "sort, worst";
    fn of(random: Vec<u64>) -> Vec<u64> {
        worst::order(random.len())
    }
}
impl Order for Alternating {
    const NAME: &'static str = "sort, alternating";
    fn of(random: Vec<u64>) -> Vec<u64> {
        worst::alternating(random.len())
    }
}

impl<O: Order> Bench for O {
    type Input = Input;
    const NAME: &'static str = O::NAME;
    const SIZES: &'static [usize] = &[1_000, 10_000, 65_536, 1_500_000];
    const OF: &'static str = "hashes";
    const REPEATS: bool = false;
    fn input(size: usize) -> Input {
        let from = O::of(drawn(size, 0));
        Input { hashes: from.clone(), from }
    }
    fn prepare(input: &mut Input, round: usize) {
        if O::FRESH {
            input.from = O::of(drawn(input.from.len(), round));
        }
        input.hashes.copy_from_slice(&input.from);
    }
    fn ours(input: &mut Input) {
        ours::sort(&mut input.hashes);
    }
    fn theirs(input: &mut Input) {
        input.hashes.sort_unstable();
    }
}
