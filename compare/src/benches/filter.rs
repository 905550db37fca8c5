//! kiban_filter_build from hashes in no order, and the package's, which allocates as the Rust does; and a filter asked for its own hashes.
//! Ours writes the filter's bytes, the Rust leaves its encoding to another call. The Rust asks a filter that it has decoded; ours reads the
//! header at each question, or once for many.
use super::Bench;
use crate::ours;
use oracle::{Rng, paper, rf};
use wobarelind::SstFilter;

pub struct Build;
pub struct Package;
pub struct AskOne;
pub struct AskBytes;
pub struct AskAll;

fn drawn(size: usize, seed: usize) -> Vec<u64> {
    let mut r = Rng((size + seed) as u64);
    (0..size).map(|_| r.next()).collect()
}

pub struct Input {
    hashes: Vec<u64>,
    wide: Vec<u64>,
    narrow: Vec<u32>,
    out: Vec<u8>,
    /// What a run made, freed outside the timed part.
    made: (Option<rf::Filter>, Option<SstFilter>),
}

impl Input {
    fn new(size: usize) -> Input {
        let c = paper::sizing(size as u64).2 as usize;
        let (wide, narrow, out) = (vec![0; c + size], vec![0; 2 * c + size], vec![0; 48 + c]);
        Input { hashes: drawn(size, 0), wide, narrow, out, made: (None, None) }
    }
    fn prepare(&mut self, round: usize) {
        self.made = (None, None);
        self.hashes = drawn(self.hashes.len(), round);
    }
    fn theirs(&mut self) {
        self.made.0 = Some(rf::Filter::build(&mut self.hashes));
    }
}

impl Bench for Build {
    type Input = Input;
    const NAME: &'static str = "filter build";
    const BUFFERS: &'static str = super::LENT;
    const REPEATS: bool = false;
    const WHOLE: bool = true;
    const PLOTTED: bool = true;

    fn input(size: usize) -> Input {
        Input::new(size)
    }
    fn prepare(i: &mut Input, round: usize) {
        i.prepare(round);
    }
    fn ours(i: &mut Input) {
        assert!(ours::filter_build(&mut i.hashes, &mut i.wide, &mut i.narrow, &mut i.out, &mut [0]) == 0);
    }
    fn theirs(i: &mut Input) {
        i.theirs();
    }
}

impl Bench for Package {
    type Input = Input;
    const NAME: &'static str = "filter build, package";
    const BUFFERS: &'static str = super::ALLOCATED;
    const REPEATS: bool = false;

    fn input(size: usize) -> Input {
        Input::new(size)
    }
    fn prepare(i: &mut Input, round: usize) {
        i.prepare(round);
    }
    fn ours(i: &mut Input) {
        i.made.1 = Some(SstFilter::build(&mut i.hashes).unwrap());
    }
    fn theirs(i: &mut Input) {
        i.theirs();
    }
}

pub struct Asked {
    hashes: Vec<u64>,
    bytes: Vec<u8>,
    answers: Vec<u8>,
    theirs: rf::Filter,
    next: usize,
}

impl Asked {
    fn new(size: usize) -> Asked {
        let hashes = drawn(size, 0);
        let theirs = rf::Filter::build(&mut hashes.clone());
        Asked { bytes: theirs.encode(), theirs, answers: vec![0; size], hashes, next: 0 }
    }
    fn hash(&mut self) -> u64 {
        self.next += 1;
        if self.next >= self.hashes.len() {
            self.next = 0;
        }
        self.hashes[self.next]
    }
}

/// Not inlined, as a call of ours can't be.
#[inline(never)]
fn maybe(filter: &rf::Filter, hash: u64) -> bool {
    filter.maybe(hash)
}

impl Bench for AskOne {
    type Input = Asked;
    const NAME: &'static str = "ask one";
    const PLOTTED: bool = true;

    fn input(size: usize) -> Asked {
        Asked::new(size)
    }
    fn ours(i: &mut Asked) {
        let hash = i.hash();
        assert!(ours::filter_ask(&i.bytes, hash) == 1);
    }
    fn theirs(i: &mut Asked) {
        let hash = i.hash();
        assert!(maybe(&i.theirs, hash));
    }
}

impl Bench for AskBytes {
    type Input = Asked;
    const NAME: &'static str = "read and ask one";
    const BUFFERS: &'static str = "the Rust copies the cells into a Vec";

    fn input(size: usize) -> Asked {
        Asked::new(size)
    }
    fn ours(i: &mut Asked) {
        AskOne::ours(i);
    }
    fn theirs(i: &mut Asked) {
        let hash = i.hash();
        assert!(maybe(&rf::Filter::decode(&i.bytes).unwrap(), hash));
    }
}

impl Bench for AskAll {
    type Input = Asked;
    const NAME: &'static str = "ask many";
    const WHOLE: bool = true;
    const PLOTTED: bool = true;

    fn input(size: usize) -> Asked {
        Asked::new(size)
    }
    fn ours(i: &mut Asked) {
        assert!(ours::filter_ask_all(&i.bytes, &i.hashes, &mut i.answers) == 0);
    }
    fn theirs(i: &mut Asked) {
        i.hashes.iter().zip(&mut i.answers).for_each(|(&h, a)| *a = i.theirs.maybe(h) as u8);
    }
}
