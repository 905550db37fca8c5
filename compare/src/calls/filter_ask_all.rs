//! kiban_filter_ask_all: one filter, asked for many hashes at once.
use super::{Call, drawn, filters};
use crate::{ours, theirs};
use oracle::Rng;

pub struct FilterAskAll;

#[derive(Debug)]
pub struct Case {
    pub bytes: Vec<u8>,
    pub hashes: Vec<u64>,
    pub answers: usize,
}

#[derive(Debug, PartialEq)]
pub struct Answer {
    pub number: u64,
    pub answers: Vec<u8>,
}

impl Call for FilterAskAll {
    type Case = Case;
    type Answer = Answer;
    const NAME: &'static str = "kiban_filter_ask_all";
    const ONE_IN: u64 = 4;
    const MET: &'static [u64] = &[0, 6, 15];

    fn fixed() -> Vec<Case> {
        let ask = |bytes, answers| Case { bytes, hashes: vec![0, 1, u64::MAX], answers };
        let short = (0..5).map(|answers| ask(oracle::paper::positive(), answers));
        filters::fixed().into_iter().map(|bytes| ask(bytes, 3)).chain(short).collect()
    }
    fn draw(r: &mut Rng) -> Case {
        let (bytes, hashes) = filters::draw(r);
        Case { bytes, answers: drawn::around(r, hashes.len()), hashes }
    }
    fn ours(c: &Case) -> Answer {
        let mut answers = vec![drawn::FILL; c.answers];
        Answer { number: ours::filter_ask_all(&c.bytes, &c.hashes, &mut answers), answers }
    }
    fn theirs(c: &Case) -> Answer {
        let mut answers = vec![drawn::FILL; c.answers];
        let number = match theirs::filter_asks(&c.bytes, &c.hashes) {
            _ if c.answers < c.hashes.len() => 6,
            None => 15,
            Some(each) => {
                each.iter().zip(&mut answers).for_each(|(e, a)| *a = *e as u8);
                0
            }
        };
        Answer { number, answers }
    }
    fn numbers(a: &Answer) -> Vec<u64> {
        vec![a.number]
    }
}
