//! kiban_filter_ask: one filter, asked for each hash by itself.
use super::{Call, filters};
use crate::{ours, theirs};
use oracle::Rng;

pub struct FilterAsk;

#[derive(Debug)]
pub struct Case {
    pub bytes: Vec<u8>,
    pub hashes: Vec<u64>,
}

impl Call for FilterAsk {
    type Case = Case;
    type Answer = Vec<u64>;
    const NAME: &'static str = "kiban_filter_ask";
    const ONE_IN: u64 = 4;
    const MET: &'static [u64] = &[0, 1, 15];
    const PLAIN: &'static [u64] = &[0, 1];

    fn fixed() -> Vec<Case> {
        filters::fixed().into_iter().map(|bytes| Case { bytes, hashes: vec![0, 1, u64::MAX] }).collect()
    }
    fn draw(r: &mut Rng) -> Case {
        let (bytes, hashes) = filters::draw(r);
        Case { bytes, hashes }
    }
    fn ours(c: &Case) -> Vec<u64> {
        c.hashes.iter().map(|&h| ours::filter_ask(&c.bytes, h)).collect()
    }
    fn theirs(c: &Case) -> Vec<u64> {
        theirs::filter_asks(&c.bytes, &c.hashes).unwrap_or(vec![15; c.hashes.len()])
    }
    fn numbers(a: &Vec<u64>) -> Vec<u64> {
        a.clone()
    }
}
