//! kiban_set_offset: the paper's answer on any state, buffer and place (the Rust's builder knows none of these; history.rs has its own).
use super::{Call, add, drawn};
use crate::{ours, theirs};
use oracle::{Rng, paper};

pub struct SetOffset;

#[derive(Debug)]
pub struct Case {
    pub buffer: Vec<u8>,
    pub state: Vec<u64>,
    pub place: u64,
    pub offset: u64,
}

#[derive(Debug, PartialEq)]
pub struct Answer {
    pub number: u64,
    pub buffer: Vec<u8>,
}

impl Call for SetOffset {
    type Case = Case;
    type Answer = Answer;
    const NAME: &'static str = "kiban_set_offset";
    const MET: &'static [u64] = &[0, 1, 7];

    fn fixed() -> Vec<Case> {
        let at = |place| Case { buffer: vec![drawn::FILL; 30], state: vec![0; 3], place, offset: 1 };
        let mut one = vec![drawn::FILL; 40];
        let (s, place) = paper::add(paper::State::default(), &mut one, true, 1, &[7], 0, 9).expect("a first record");
        let of = |keys, place| Case { buffer: one.clone(), state: vec![s.used, keys, s.head], place, offset: u64::MAX };
        vec![at(0), at(u64::MAX - 7), at(8), of(1, place), of(1, place + 1), of(0, place), of(65_537, place)]
    }
    fn draw(r: &mut Rng) -> Case {
        let (buffer, s, _, _) = add::started(r);
        let place = s.used.wrapping_sub(8);
        let place = if r.below(4) > 0 {
            place
        } else {
            [place.wrapping_sub(1), place.wrapping_add(1), 0, r.next()][r.below(4) as usize]
        };
        Case { buffer, state: add::words(r, s), place, offset: r.next() }
    }
    fn ours(c: &Case) -> Answer {
        let mut buffer = c.buffer.clone();
        let number = ours::set_offset(&mut buffer, &c.state, c.place, c.offset);
        Answer { number, buffer }
    }
    fn theirs(c: &Case) -> Answer {
        let mut buffer = c.buffer.clone();
        let number = theirs::set_offset(&mut buffer, &c.state, c.place, c.offset);
        Answer { number, buffer }
    }
    fn numbers(a: &Answer) -> Vec<u64> {
        vec![a.number]
    }
}
