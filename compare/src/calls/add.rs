//! kiban_add: the paper's answer on any state, buffer and lengths (the Rust's builder knows none of these; history.rs has its own).
use super::{Call, drawn};
use crate::{ours, theirs};
use oracle::{Rng, paper};

pub struct Add;

#[derive(Debug)]
pub struct Case {
    pub buffer: Vec<u8>,
    pub state: Vec<u64>,
    pub key: Vec<u8>,
    pub kind: u8,
    pub length: u64,
    pub sequence: u64,
    pub new_key: u8,
    pub answers: usize,
}

#[derive(Debug, PartialEq)]
pub struct Answer {
    pub number: u64,
    pub buffer: Vec<u8>,
    pub state: Vec<u64>,
    pub answer: Vec<u64>,
}

/// A buffer and a state after some records of a list, with room for more or not.
pub fn started(r: &mut Rng) -> (Vec<u8>, paper::State, Vec<u8>, u64) {
    let (keys, style) = (1 + r.below(6) as usize, r.next());
    let recs = oracle::check::random_list(r, keys, 100, style);
    let taken = r.below(recs.len().min(12) as u64 + 1) as usize;
    let room: usize = recs[..taken].iter().map(|x| 21 + if x.new { 8 + x.key.len() } else { 0 }).sum();
    let mut buffer = vec![drawn::FILL; room + [0, 20, 21, 29, 60, 200][r.below(6) as usize]];
    let mut state = paper::State::default();
    for x in &recs[..taken] {
        (state, _) =
            paper::add(state, &mut buffer, x.new, x.kind, &x.key, x.len, x.seq).expect("a list that add takes");
    }
    let last = recs[..taken].last();
    (buffer, state, last.map_or(Vec::new(), |x| x.key.clone()), last.map_or(0, |x| x.seq))
}

/// The state as words, at times with one of them changed.
pub fn words(r: &mut Rng, s: paper::State) -> Vec<u64> {
    let mut state = vec![s.used, s.keys, s.head];
    match r.below(12) {
        0 => state[r.below(3) as usize] = [0, 1, u64::MAX, 65_536, 65_537][r.below(5) as usize],
        1 => {
            let at = r.below(3) as usize;
            state[at] = state[at].wrapping_add(r.below(3)).wrapping_sub(1);
        }
        2 if r.below(4) == 0 => state.truncate(r.below(3) as usize),
        _ => {}
    }
    state
}

impl Call for Add {
    type Case = Case;
    type Answer = Answer;
    const NAME: &'static str = "kiban_add";
    const MET: &'static [u64] = &[0, 1, 2, 3, 4, 5, 6, 28];

    fn fixed() -> Vec<Case> {
        let long = |n: usize, room: usize| Case {
            buffer: vec![drawn::FILL; room],
            state: vec![0; 3],
            key: vec![7; n],
            kind: 1,
            length: 16_777_216,
            sequence: u64::MAX,
            new_key: 1,
            answers: 1,
        };
        let mut one = vec![drawn::FILL; 60];
        let (state, _) = paper::add(paper::State::default(), &mut one, true, 1, &[7], 0, 9).expect("a first record");
        let next = |keys, key, kind, length, sequence, new_key| Case {
            buffer: one.clone(),
            state: vec![state.used, keys, state.head],
            key: vec![key],
            kind,
            length,
            sequence,
            new_key,
            answers: 1,
        };
        vec![
            long(1_048_576, 1_048_605),
            long(1_048_576, 1_048_604),
            long(1_048_577, 1_048_700),
            long(0, 29),
            long(0, 28),
            next(1, 8, 1, 0, 1, 1),
            next(65_535, 8, 1, 0, 1, 1),
            next(65_536, 8, 1, 0, 1, 1),
            next(65_536, 7, 1, 0, 8, 0),
            next(65_537, 8, 1, 0, 1, 1),
            next(1, 7, 1, 0, 9, 0),
            next(1, 8, 2, 1, 1, 1),
            next(1, 8, 0, 0, 1, 1),
            next(1, 8, 3, 0, 1, 1),
        ]
    }
    fn draw(r: &mut Rng) -> Case {
        let (mut buffer, s, last, sequence) = started(r);
        if r.below(12) == 0 && !buffer.is_empty() {
            let at = r.below(buffer.len() as u64) as usize;
            buffer[at] ^= 1 << r.below(8);
        }
        let mut key = last;
        match r.below(6) {
            0 => key.push(r.next() as u8),
            1 => _ = key.pop(),
            2 => key.iter_mut().for_each(|b| *b = b.wrapping_add(r.below(2) as u8)),
            3 => key = r.bytes(8),
            _ => {}
        }
        Case {
            buffer,
            state: words(r, s),
            key,
            kind: if r.below(20) == 0 { r.next() as u8 } else { 1 + r.below(2) as u8 },
            length: [0, 0, 0, 1, r.below(100), 16_777_216, 16_777_217, u64::MAX][r.below(8) as usize],
            sequence: [0, u64::MAX, sequence, sequence.wrapping_sub(1), sequence / 2, r.next()][r.below(6) as usize],
            new_key: [0, 1, 1, 255][r.below(4) as usize],
            answers: if r.below(20) == 0 { 0 } else { 1 + r.below(2) as usize },
        }
    }
    fn ours(c: &Case) -> Answer {
        let (mut buffer, mut state, mut answer) =
            (c.buffer.clone(), c.state.clone(), vec![drawn::FILL_WIDE; c.answers]);
        let number = ours::add(&mut buffer, &mut state, &c.key, c.kind, c.length, c.sequence, c.new_key, &mut answer);
        Answer { number, buffer, state, answer }
    }
    fn theirs(c: &Case) -> Answer {
        let (mut buffer, mut state, mut answer) =
            (c.buffer.clone(), c.state.clone(), vec![drawn::FILL_WIDE; c.answers]);
        let number =
            match theirs::add(&mut buffer, &c.state, &c.key, c.kind, c.length, c.sequence, c.new_key, c.answers) {
                Err(number) => number,
                Ok((s, place)) => {
                    state[..3].copy_from_slice(&[s.used, s.keys, s.head]);
                    answer[0] = place;
                    0
                }
            };
        Answer { number, buffer, state, answer }
    }
    fn numbers(a: &Answer) -> Vec<u64> {
        vec![a.number]
    }
}
