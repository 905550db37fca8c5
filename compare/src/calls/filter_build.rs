//! kiban_filter_build: the Rust's filter, with the paper's refusals.
use super::{Call, drawn};
use crate::{ours, theirs, worst};
use oracle::{Rng, hunt, paper};

pub struct FilterBuild;

#[derive(Debug)]
pub struct Case {
    pub hashes: Vec<u64>,
    pub wide: usize,
    pub narrow: usize,
    pub out: usize,
    pub answers: usize,
}

#[derive(Debug, PartialEq)]
pub struct Answer {
    pub number: u64,
    pub hashes: Vec<u64>,
    pub wide: Vec<u64>,
    pub narrow: Vec<u32>,
    pub out: Vec<u8>,
    pub answer: Vec<u64>,
}

impl Answer {
    fn lent(c: &Case) -> Self {
        Answer {
            number: 0,
            hashes: c.hashes.clone(),
            wide: vec![drawn::FILL_WIDE; c.wide],
            narrow: vec![drawn::FILL_NARROW; c.narrow],
            out: vec![drawn::FILL; c.out],
            answer: vec![drawn::FILL_WIDE; c.answers],
        }
    }
}

impl Call for FilterBuild {
    type Case = Case;
    type Answer = Answer;
    const NAME: &'static str = "kiban_filter_build";
    const ONE_IN: u64 = 10;
    const MET: &'static [u64] = &[0, 6, 9, 12];

    /// No hash, few, as many as there may be, one more; lengths one short; equal hashes, also in the orders that sorting takes longest
    /// for; both ends of every row of the sizes; hashes that no attempt peels, and such with one of them drawn anew.
    fn fixed() -> Vec<Case> {
        let made = |n: u64| (0..n).map(|i| paper::mix(i.wrapping_mul(paper::STEP))).collect::<Vec<u64>>();
        let fit = |h: Vec<u64>| Case { wide: 150_000, narrow: 250_000, out: 80_000, answers: 1, hashes: h };
        let short = |wide, narrow, out| Case { wide, narrow, out, ..fit(made(1)) };
        let sizes = [0, 1, 2, 3, 4, 5, 65_536, 65_537].map(|n| fit(made(n)));
        let short = [short(15, 29, 62), short(14, 29, 62), short(15, 28, 62), short(15, 29, 61)];
        let none = [48, 47].map(|out| Case { wide: 0, narrow: 0, out, answers: 1, hashes: Vec::new() });
        let rows = (5..65_536).filter(|&n| paper::sizing(n) != paper::sizing(n + 1));
        let ends = rows.flat_map(|n| [n, n + 1]).map(|n| fit(made(n)));
        let equal = [vec![0, 0], worst::order(65_536), worst::alternating(65_536)].map(fit);
        let mut r = Rng(1);
        let mut hunted: Vec<Vec<u64>> = [200, 300, 5_000, 65_536].map(|n| hunt::exhaust_pairs(n, &mut r)).into();
        for at in (0..200).step_by(10) {
            let mut h = hunt::exhaust_pairs(200, &mut r);
            h[at] = r.next();
            hunted.push(h);
        }
        let hunted = hunted.into_iter().map(fit);
        sizes.into_iter().chain(short).chain(none).chain(equal).chain(ends).chain(hunted).collect()
    }
    fn draw(r: &mut Rng) -> Case {
        let hashes = drawn::hashes(r);
        let n = hashes.len();
        let c = if n == 0 { 0 } else { paper::sizing(n as u64).2 as usize };
        Case {
            wide: drawn::around(r, c + n),
            narrow: drawn::around(r, 2 * c + n),
            out: drawn::around(r, 48 + c),
            answers: if r.below(40) == 0 { 0 } else { 1 },
            hashes,
        }
    }
    fn ours(c: &Case) -> Answer {
        let mut a = Answer::lent(c);
        a.number = ours::filter_build(&mut a.hashes, &mut a.wide, &mut a.narrow, &mut a.out, &mut a.answer);
        a
    }
    fn theirs(c: &Case) -> Answer {
        let mut a = Answer::lent(c);
        match theirs::filter_build(&mut a.hashes, c.out, c.wide, c.narrow, c.answers) {
            Ok(filter) => {
                a.out[..filter.len()].copy_from_slice(&filter);
                a.answer[0] = filter.len() as u64;
                a.wide.fill(0);
                a.narrow.fill(0);
            }
            Err(number) => a.number = number,
        }
        a
    }
    fn numbers(a: &Answer) -> Vec<u64> {
        vec![a.number]
    }
}
