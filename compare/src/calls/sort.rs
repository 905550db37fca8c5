//! kiban_sort, against `sort_unstable`.
use super::{Call, drawn};
use crate::{ours, worst};
use oracle::Rng;

pub struct Sort;

#[derive(Debug, PartialEq)]
pub struct Answer {
    pub number: u64,
    pub hashes: Vec<u64>,
}

/// So many hashes in each order: in none, rising, falling, rising and falling, few that differ, all equal, those against the
/// pivots.
fn orders(n: u64) -> [Vec<u64>; 8] {
    let mut r = Rng(n);
    let random: Vec<u64> = (0..n).map(|_| r.next()).collect();
    let mut rising = random.clone();
    rising.sort_unstable();
    let falling = rising.iter().rev().copied().collect();
    let both = rising.iter().step_by(2).chain(rising.iter().rev().step_by(2)).copied().collect();
    let few = random.iter().map(|h| h % 3).collect();
    [random, rising, falling, both, few, vec![n; n as usize], worst::order(n as usize), worst::alternating(n as usize)]
}

impl Call for Sort {
    type Case = Vec<u64>;
    type Answer = Answer;
    const NAME: &'static str = "kiban_sort";
    const ONE_IN: u64 = 4;
    const MET: &'static [u64] = &[0];

    fn fixed() -> Vec<Vec<u64>> {
        (0..50).chain([1_000, 65_536, 200_000]).flat_map(orders).collect()
    }
    /// Hashes as a filter gets them, one time in two with few bits left, or put in order but for a few.
    fn draw(r: &mut Rng) -> Vec<u64> {
        let mut hashes = drawn::hashes(r);
        let shift = r.below(64);
        match r.below(4) {
            0 => hashes.iter_mut().for_each(|h| *h >>= shift),
            1 if !hashes.is_empty() => {
                hashes.sort_unstable();
                let n = hashes.len() as u64;
                (0..r.below(4)).for_each(|_| hashes.swap(r.below(n) as usize, r.below(n) as usize));
            }
            _ => {}
        }
        hashes
    }
    fn ours(case: &Vec<u64>) -> Answer {
        let mut hashes = case.clone();
        Answer { number: ours::sort(&mut hashes), hashes }
    }
    fn theirs(case: &Vec<u64>) -> Answer {
        let mut hashes = case.clone();
        hashes.sort_unstable();
        Answer { number: 0, hashes }
    }
    fn numbers(a: &Answer) -> Vec<u64> {
        vec![a.number]
    }
}
