//! kiban_listing: against a text rendered from the Rust's answers (the Rust has no listing).
use super::{Call, drawn};
use crate::{ours, theirs};
use oracle::{Rng, paper};

pub struct Listing;

#[derive(Debug)]
pub struct Case {
    pub input: Vec<u8>,
    pub out: usize,
    pub answers: usize,
}

#[derive(Debug, PartialEq)]
pub struct Answer {
    pub number: u64,
    pub out: Vec<u8>,
    pub answer: Vec<u64>,
}

/// An input: the limit, the data's length, the body.
fn given(limit: u64, data: u64, body: &[u8]) -> Vec<u8> {
    [&limit.to_le_bytes()[..], &data.to_le_bytes(), body].concat()
}

impl Call for Listing {
    type Case = Case;
    type Answer = Answer;
    const NAME: &'static str = "kiban_listing";
    const ONE_IN: u64 = 4;
    const MET: &'static [u64] = &[0, 6, 16, 20, 21, 22, 23, 24, 25, 26, 27, 28, 29, 30];

    fn fixed() -> Vec<Case> {
        let zeros = [0, 15, 16, 48, 65_536, 65_537].map(|n| Case { input: vec![0; n], out: 100, answers: 1 });
        let example = drawn::example_bodies().into_iter().map(|body| (body, drawn::EXAMPLE_DATA));
        let bodies = example.chain(drawn::edge_bodies()).map(|(body, data)| given(8, data, &body));
        let text = |input: Vec<u8>| Case { out: paper::listing(&input).len(), input, answers: 1 };
        let whole = given(8, drawn::EXAMPLE_DATA, &drawn::example_bodies()[204]);
        let short = [(0, 1), (36, 1), (37, 1), (100, 0), (100, 2)];
        let short = short.map(|(out, answers)| Case { input: whole.clone(), out, answers });
        zeros.into_iter().chain(bodies.map(text)).chain(short).collect()
    }
    fn draw(r: &mut Rng) -> Case {
        let (body, data, recs) = drawn::any_body(r);
        let limit = if r.below(3) == 0 { r.next() } else { recs[r.below(recs.len() as u64) as usize].seq };
        let input = given(limit, data, &body);
        let text = paper::listing(&input).len();
        Case { input, out: drawn::around(r, text), answers: if r.below(40) == 0 { 0 } else { 1 } }
    }
    fn ours(c: &Case) -> Answer {
        let (mut out, mut answer) = (vec![drawn::FILL; c.out], vec![drawn::FILL_WIDE; c.answers]);
        let number = ours::listing(&c.input, &mut out, &mut answer);
        Answer { number, out, answer }
    }
    fn theirs(c: &Case) -> Answer {
        let (mut out, mut answer) = (vec![drawn::FILL; c.out], vec![drawn::FILL_WIDE; c.answers]);
        let number = match theirs::listing(&c.input, c.out, c.answers) {
            Ok(text) => {
                out[..text.len()].copy_from_slice(text.as_bytes());
                answer[0] = text.len() as u64;
                0
            }
            Err(number) => number,
        };
        Answer { number, out, answer }
    }
    /// The number in a text `refused R`, or the call's own.
    fn numbers(a: &Answer) -> Vec<u64> {
        let text = a.out.strip_prefix(b"refused ").and_then(|t| t.split(|&b| b == b'\n').next());
        vec![text.map_or(a.number, |t| oracle::num(str::from_utf8(t).expect("a number")))]
    }
}
