//! Rows of kiban_add and kiban_set_offset, each on the state and buffer that the last one left: the Rust's builder,
//! with the paper's refusals; the arena, the state and the places are the Rust's.
use super::{Call, drawn};
use crate::{ours, theirs};
use oracle::Rng;
use oracle::check::random_list;

pub struct History;

#[derive(Clone, Debug)]
pub enum Step {
    Add {
        key: Vec<u8>,
        kind: u8,
        length: u64,
        sequence: u64,
        new_key: u8,
    },
    /// At so many bytes past the last record's own place.
    SetOffset {
        past: u64,
        offset: u64,
    },
}

#[derive(Debug)]
pub struct Case {
    pub room: usize,
    pub steps: Vec<Step>,
}

#[derive(Debug, PartialEq)]
pub struct Answer {
    pub numbers: Vec<u64>,
    pub places: Vec<u64>,
    pub state: [u64; 3],
    pub buffer: Vec<u8>,
}

/// The steps that make a list, and the bytes they need.
fn taken(r: &mut Rng) -> (Vec<Step>, usize) {
    let (keys, style) = (1 + r.below(12) as usize, r.next());
    let recs = random_list(r, keys, 100, style);
    let room = recs.iter().map(|x| 21 + if x.new { 8 + x.key.len() } else { 0 }).sum();
    let mut steps = Vec::new();
    for x in recs {
        let (new_key, offset) = (x.new as u8, x.offset);
        steps.push(Step::Add { key: x.key, kind: x.kind, length: x.len, sequence: x.seq, new_key });
        if r.below(5) > 0 {
            steps.push(Step::SetOffset { past: 0, offset });
        }
    }
    (steps, room)
}

/// One step made another, which is refused in most cases.
fn changed(r: &mut Rng, step: &mut Step) {
    match step {
        Step::SetOffset { past, .. } => *past = [1, 8, u64::MAX, r.next()][r.below(4) as usize],
        Step::Add { key, kind, length, sequence, new_key } => match r.below(6) {
            0 => *new_key ^= 1,
            1 if r.below(400) == 0 => *length = 16_777_216,
            1 => *length = [16_777_217, u64::MAX][r.below(2) as usize],
            2 => (*kind, *length) = (2, r.below(2)),
            3 => _ = key.pop(),
            4 => *sequence = sequence.wrapping_add(1 + r.next() % 100),
            _ if r.below(40) == 0 => *key = vec![255; 1_048_576 + r.below(2) as usize],
            _ => key.insert(0, r.next() as u8),
        },
    }
}

impl Call for History {
    type Case = Case;
    type Answer = Answer;
    const NAME: &'static str = "rows of add, set_offset";
    const ONE_IN: u64 = 2;
    const MET: &'static [u64] = &[0, 2, 3, 4, 5, 6, 7];

    /// As many keys as there may be, and one more; each other refusal once.
    fn fixed() -> Vec<Case> {
        let add = |key: Vec<u8>, kind, length, sequence, new_key| Step::Add { key, kind, length, sequence, new_key };
        let keys = (0..65_537u32).map(|i| add(i.to_be_bytes().to_vec(), 1, i as u64 % 9, i as u64, 1)).collect();
        let refused = vec![
            Step::SetOffset { past: 0, offset: 1 },
            add(vec![5], 1, 1, 9, 0),
            add(vec![5; 1_048_577], 1, 1, 9, 1),
            add(vec![5], 1, 16_777_217, 9, 1),
            add(vec![5], 2, 1, 9, 1),
            add(vec![5], 1, 16_777_216, 9, 1),
            Step::SetOffset { past: 1, offset: 1 },
            Step::SetOffset { past: 0, offset: u64::MAX },
            add(vec![5], 1, 1, 9, 0),
            add(vec![5], 1, 1, 8, 1),
            add(vec![5], 2, 0, 8, 0),
            add(vec![6], 1, 1, 0, 1),
            add(vec![6], 1, 1, 0, 0),
        ];
        vec![Case { room: 65_537 * 33, steps: keys }, Case { room: 51, steps: refused }]
    }
    /// A list that add takes, one in two with a few steps changed, repeated or left out; the room about what it needs.
    fn draw(r: &mut Rng) -> Case {
        let (mut steps, room) = taken(r);
        let changes = if r.below(2) == 0 { 0 } else { 1 + r.below(3) };
        for _ in 0..changes {
            let at = r.below(steps.len() as u64) as usize;
            match r.below(6) {
                0 => steps.insert(at, steps[at].clone()),
                1 if steps.len() > 1 => _ = steps.remove(at),
                _ => changed(r, &mut steps[at]),
            }
        }
        let room = if r.below(4) == 0 { drawn::around(r, room) } else { room + r.below(100) as usize };
        Case { room, steps }
    }
    fn ours(c: &Case) -> Answer {
        let (mut buffer, mut state) = (vec![drawn::FILL; c.room], [0; 3]);
        let (mut numbers, mut places) = (Vec::new(), Vec::new());
        for step in &c.steps {
            match step {
                Step::Add { key, kind, length, sequence, new_key } => {
                    let mut place = [drawn::FILL_WIDE];
                    let lent = (&mut buffer[..], &mut state[..], &mut place[..]);
                    numbers.push(ours::add(lent.0, lent.1, key, *kind, *length, *sequence, *new_key, lent.2));
                    places.push(place[0]);
                }
                Step::SetOffset { past, offset } => {
                    let place = state[0].wrapping_sub(8).wrapping_add(*past);
                    numbers.push(ours::set_offset(&mut buffer, &state, place, *offset));
                }
            }
        }
        Answer { numbers, places, state, buffer }
    }
    fn theirs(c: &Case) -> Answer {
        let mut builder = theirs::Builder::new(vec![drawn::FILL; c.room]);
        let (mut numbers, mut places) = (Vec::new(), Vec::new());
        for step in &c.steps {
            match step {
                Step::Add { key, kind, length, sequence, new_key } => {
                    let added = builder.add(key, *kind, *length, *sequence, *new_key != 0);
                    numbers.push(added.err().unwrap_or(0));
                    places.push(added.unwrap_or(drawn::FILL_WIDE));
                }
                Step::SetOffset { past, offset } => {
                    let place = builder.state()[0].wrapping_sub(8).wrapping_add(*past);
                    numbers.push(builder.set_offset(place, *offset));
                }
            }
        }
        let arena = builder.arena();
        let buffer = [arena, &vec![drawn::FILL; c.room - arena.len()]].concat();
        Answer { numbers, places, state: builder.state(), buffer }
    }
    fn numbers(a: &Answer) -> Vec<u64> {
        a.numbers.clone()
    }
}
