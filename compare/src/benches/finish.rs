//! kiban_finish, against the Rust's finish_legacy on the builder that holds the same arena; and finish_legacy of the package in
//! bindings/rust, which allocates as the Rust does. The trailer's check bytes, which ours leaves to the host, cost the Rust nothing here.
use super::{Bench, of_keys, records};
use crate::ours;
use oracle::lines::{Rec, rust_builder};
use oracle::rp;
use wobarelind::{Kind, PointBuilder};

pub struct Finish<const BYTES: usize>;
pub struct Package;

pub struct Input {
    recs: Vec<Rec>,
    arena: Vec<u8>,
    out: Vec<u8>,
    wide: Vec<u64>,
    narrow: Vec<u32>,
    theirs: Option<rp::Legacy>,
    /// What a run made, freed outside the timed part.
    made: Vec<u8>,
}

impl Input {
    fn new(size: usize, bytes: usize) -> Input {
        let recs = records(size, bytes, 8, 0);
        let arena = rust_builder(&recs).unwrap().arena().to_vec();
        let out = vec![0; 32 + 4 * size.div_ceil(3) + 12 * size + arena.len()];
        let (wide, narrow) = (vec![0; 2 * size], vec![0; 8 * size + 8]);
        Input { recs, arena, out, wide, narrow, theirs: None, made: Vec::new() }
    }
    /// The Rust's builder anew, and our arena written too, so that both are as warm.
    fn prepare(&mut self, round: usize) {
        self.made = Vec::new();
        self.recs = records(self.recs.len(), self.recs[0].key.len(), 8, round);
        let theirs = rust_builder(&self.recs).unwrap();
        self.arena.copy_from_slice(theirs.arena());
        self.theirs = Some(theirs);
    }
    fn theirs(&mut self) {
        self.made = self.theirs.take().unwrap().finish().unwrap();
    }
}

impl<const BYTES: usize> Bench for Finish<BYTES> {
    type Input = Input;
    const NAME: &'static str = of_keys(BYTES, "finish", "finish, 13 bytes");
    const BUFFERS: &'static str = super::LENT;
    const REPEATS: bool = false;
    const WHOLE: bool = true;
    const PLOTTED: bool = BYTES == 16;

    fn input(size: usize) -> Input {
        Input::new(size, BYTES)
    }
    fn prepare(i: &mut Input, round: usize) {
        i.prepare(round);
    }
    fn ours(i: &mut Input) {
        assert!(ours::finish(&i.arena, &mut i.out, &mut i.wide, &mut i.narrow, &mut [0]) == 0);
    }
    fn theirs(i: &mut Input) {
        i.theirs();
    }
}

impl Bench for Package {
    type Input = (Input, PointBuilder);
    const NAME: &'static str = "finish, package";
    const BUFFERS: &'static str = super::ALLOCATED;
    const REPEATS: bool = false;

    fn input(size: usize) -> Self::Input {
        (Input::new(size, 16), PointBuilder::new())
    }
    fn prepare((i, ours): &mut Self::Input, round: usize) {
        i.prepare(round);
        *ours = PointBuilder::new();
        for r in &i.recs {
            let place = ours.add(Kind::Put, &r.key, r.len, r.seq, r.new).unwrap();
            ours.set_value_offset(place, r.offset).unwrap();
        }
    }
    fn ours((i, ours): &mut Self::Input) {
        i.made = ours.finish_legacy().unwrap();
    }
    fn theirs((i, _): &mut Self::Input) {
        i.theirs();
    }
}
