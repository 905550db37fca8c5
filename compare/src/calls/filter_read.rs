//! kiban_filter_read.
use super::{Call, drawn, filters};
use crate::{ours, theirs};
use oracle::Rng;

pub struct FilterRead;

#[derive(Debug)]
pub struct Case {
    pub bytes: Vec<u8>,
    pub answers: usize,
}

#[derive(Debug, PartialEq)]
pub struct Answer {
    pub number: u64,
    pub answer: Vec<u64>,
}

impl Call for FilterRead {
    type Case = Case;
    type Answer = Answer;
    const NAME: &'static str = "kiban_filter_read";
    const ONE_IN: u64 = 4;
    const MET: &'static [u64] = &[0, 6, 15];

    fn fixed() -> Vec<Case> {
        let short = (0..8).map(|answers| Case { bytes: oracle::paper::positive(), answers });
        filters::fixed().into_iter().map(|bytes| Case { bytes, answers: 6 }).chain(short).collect()
    }
    fn draw(r: &mut Rng) -> Case {
        let (bytes, _) = filters::draw(r);
        Case { bytes, answers: if r.below(40) == 0 { r.below(6) as usize } else { 6 + r.below(2) as usize } }
    }
    fn ours(c: &Case) -> Answer {
        let mut answer = vec![drawn::FILL_WIDE; c.answers];
        Answer { number: ours::filter_read(&c.bytes, &mut answer), answer }
    }
    fn theirs(c: &Case) -> Answer {
        let mut answer = vec![drawn::FILL_WIDE; c.answers];
        let number = match theirs::filter_fields(&c.bytes) {
            _ if c.answers < 6 => 6,
            None => 15,
            Some(fields) => {
                answer[..6].copy_from_slice(&fields);
                0
            }
        };
        Answer { number, answer }
    }
    fn numbers(a: &Answer) -> Vec<u64> {
        vec![a.number]
    }
}
