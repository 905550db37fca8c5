//! kiban_get, on whole bodies and damaged ones: the Rust's answer, with the paper's offset.
use super::{Call, drawn};
use crate::{ours, theirs};
use oracle::{Rng, data};

pub struct Get;

#[derive(Debug)]
pub struct Case {
    pub body: Vec<u8>,
    pub data: u64,
    pub key: Vec<u8>,
    pub limit: Option<u64>,
    pub answers: usize,
}

#[derive(Debug, PartialEq)]
pub struct Answer {
    pub number: u64,
    pub answer: Vec<u64>,
}

impl Call for Get {
    type Case = Case;
    type Answer = Answer;
    const NAME: &'static str = "kiban_get";
    const ONE_IN: u64 = 2;
    const MET: &'static [u64] = &[0, 1, 6, 14];
    const PLAIN: &'static [u64] = &[0, 1];

    fn fixed() -> Vec<Case> {
        let ask = |body: &[u8], key: &[u8], limit, answers| Case {
            body: body.to_vec(),
            data: drawn::EXAMPLE_DATA,
            key: key.to_vec(),
            limit,
            answers,
        };
        let keys = [(b"A", Some(8)), (b"B", None), (b"C", Some(12)), (b"C", Some(11)), (b"D", None)];
        let bodies = drawn::example_bodies();
        let all = bodies.iter().flat_map(|b| keys.map(|(key, limit)| ask(b, key, limit, 4)));
        let edges = drawn::edge_bodies().into_iter().map(|(body, data)| Case { data, ..ask(&body, b"K", None, 4) });
        all.chain((0..6).map(|n| ask(&bodies[204], b"A", None, n))).chain(edges).collect()
    }
    fn draw(r: &mut Rng) -> Case {
        let (body, data, recs) = drawn::any_body(r);
        let x = &recs[r.below(recs.len() as u64) as usize];
        let mut key = x.key.clone();
        if r.below(5) == 0 {
            key.push(r.next() as u8);
        }
        let limit = match r.below(5) {
            0 => None,
            1 => Some(r.next()),
            _ => Some(x.seq.wrapping_sub(r.below(2))),
        };
        Case {
            body,
            data,
            key,
            limit,
            answers: if r.below(40) == 0 { r.below(4) as usize } else { 4 + r.below(2) as usize },
        }
    }
    fn ours(c: &Case) -> Answer {
        let mut answer = vec![drawn::FILL_WIDE; c.answers];
        let number = ours::get(&c.body, &data(c.data as usize), &c.key, c.limit, &mut answer);
        Answer { number, answer }
    }
    fn theirs(c: &Case) -> Answer {
        let mut answer = vec![drawn::FILL_WIDE; c.answers];
        let number = match theirs::get(&c.body, c.data, &c.key, c.limit, c.answers) {
            Ok(found) => {
                answer[..4].copy_from_slice(&found);
                0
            }
            Err(number) => number,
        };
        Answer { number, answer }
    }
    fn numbers(a: &Answer) -> Vec<u64> {
        vec![a.number]
    }
}
