//! kiban_validate, on whole bodies and damaged ones.
use super::{Call, drawn};
use crate::{ours, theirs};
use oracle::Rng;

pub struct Validate;

#[derive(Debug)]
pub struct Case {
    pub body: Vec<u8>,
    pub data: u64,
}

impl Call for Validate {
    type Case = Case;
    type Answer = u64;
    const NAME: &'static str = "kiban_validate";
    const ONE_IN: u64 = 2;
    const MET: &'static [u64] = &[0, 20, 21, 22, 23, 24, 25, 26, 27, 28, 29, 30];

    fn fixed() -> Vec<Case> {
        let example = drawn::example_bodies().into_iter().map(|body| (body, drawn::EXAMPLE_DATA));
        example.chain(drawn::edge_bodies()).map(|(body, data)| Case { body, data }).collect()
    }
    fn draw(r: &mut Rng) -> Case {
        let (body, data, _) = drawn::any_body(r);
        let data = if r.below(20) == 0 { u64::MAX - r.below(3) } else { data };
        Case { body, data }
    }
    fn ours(c: &Case) -> u64 {
        ours::validate(&c.body, c.data)
    }
    fn theirs(c: &Case) -> u64 {
        theirs::validate(&c.body, c.data)
    }
    fn numbers(a: &u64) -> Vec<u64> {
        vec![*a]
    }
}
