//! kiban_finish: the Rust's body, with the paper's refusals 8, 5, 9 and 6.
use super::{Call, drawn};
use crate::{ours, theirs};
use oracle::{Rng, hunt, paper};

pub struct Finish;

#[derive(Debug)]
pub struct Case {
    pub arena: Vec<u8>,
    pub out: usize,
    pub wide: usize,
    pub narrow: usize,
    pub answers: usize,
}

#[derive(Debug, PartialEq)]
pub struct Answer {
    pub number: u64,
    pub out: Vec<u8>,
    pub wide: Vec<u64>,
    pub narrow: Vec<u32>,
    pub answer: Vec<u64>,
}

impl Answer {
    fn lent(c: &Case) -> Self {
        Answer {
            number: 0,
            out: vec![drawn::FILL; c.out],
            wide: vec![drawn::FILL_WIDE; c.wide],
            narrow: vec![drawn::FILL_NARROW; c.narrow],
            answer: vec![drawn::FILL_WIDE; c.answers],
        }
    }
}

/// An arena with what its finish needs, less so much.
fn fit(arena: Vec<u8>, out: usize, wide: usize, narrow: usize) -> Case {
    let n = paper::walk(&arena, 0, None, None, &mut |_, _| true).map_or(3, |w| w.0.len());
    let body = 32 + 4 * n.div_ceil(3) + 12 * n + arena.len();
    Case { out: body - out, wide: 2 * n - wide.min(2 * n), narrow: 8 * n + 8 - narrow, answers: 1, arena }
}

impl Call for Finish {
    type Case = Case;
    type Answer = Answer;
    const NAME: &'static str = "kiban_finish";
    const ONE_IN: u64 = 10;
    const MET: &'static [u64] = &[0, 5, 6, 8, 9, 10];

    /// No key, one, as many as there may be, one more; lengths one short; keys for each attempt, and for none.
    fn fixed() -> Vec<Case> {
        let mut r = Rng(1);
        let lists = [0, 1, 2, 3, 4, 65_536, 65_537].map(|n| (0..n).map(|i: u32| i.to_be_bytes().to_vec()).collect());
        let attempts = (0..9).map(|attempt| hunt::keys_for_attempt(attempt, &mut r));
        let mut cases: Vec<Case> =
            lists.into_iter().chain(attempts).map(|keys| fit(drawn::arena_of(keys), 0, 0, 0)).collect();
        let arena = drawn::arena_of(vec![vec![1], vec![2]]);
        cases.extend([(1, 0, 0), (0, 1, 0), (0, 0, 1)].map(|(o, w, n)| fit(arena.clone(), o, w, n)));
        cases.push(fit(arena[..arena.len() - 1].to_vec(), 0, 0, 0));
        cases
    }
    fn draw(r: &mut Rng) -> Case {
        let mut arena = drawn::arena(r);
        match r.below(8) {
            0 => arena.truncate(r.below(arena.len() as u64 + 1) as usize),
            1 => {
                let at = r.below(arena.len() as u64) as usize;
                arena[at] ^= 1 << r.below(8);
            }
            _ => {}
        }
        let fit = fit(arena, 0, 0, 0);
        Case {
            out: drawn::around(r, fit.out),
            wide: drawn::around(r, fit.wide),
            narrow: drawn::around(r, fit.narrow),
            answers: if r.below(40) == 0 { 0 } else { 1 },
            ..fit
        }
    }
    fn ours(c: &Case) -> Answer {
        let mut a = Answer::lent(c);
        a.number = ours::finish(&c.arena, &mut a.out, &mut a.wide, &mut a.narrow, &mut a.answer);
        a
    }
    fn theirs(c: &Case) -> Answer {
        let mut a = Answer::lent(c);
        match theirs::finish(&c.arena, c.out, c.wide, c.narrow, c.answers) {
            Ok(body) => {
                a.out[..body.len()].copy_from_slice(&body);
                a.answer[0] = body.len() as u64;
            }
            Err(number) => a.number = number,
        }
        if a.number == 0 || a.number == 10 {
            a.wide.fill(0);
            a.narrow.fill(0);
        }
        a
    }
    fn numbers(a: &Answer) -> Vec<u64> {
        vec![a.number]
    }
}
