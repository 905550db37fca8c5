//! kiban_get, no limit, on the very bytes that the Rust's index holds: keys that are there, in a shuffled order, and keys that aren't,
//! of 16 bytes or of 13. The Rust's answer of a key that is there holds a copy of the value, ours its place; an empty value is no copy.
use super::{Bench, body, of_keys};
use crate::ours;
use oracle::{Rng, data, rp};

pub struct Hit<const BYTES: usize>;
pub struct Empty;
pub struct Miss<const BYTES: usize>;

pub struct Input {
    keys: Vec<Vec<u8>>,
    data: std::sync::Arc<[u8]>,
    theirs: rp::Prepared,
    next: usize,
}

impl Input {
    fn new(
        size: usize,
        bytes: usize,
        length: u64,
        asked: impl FnOnce(&mut Rng, Vec<Vec<u8>>) -> Vec<Vec<u8>>,
    ) -> Input {
        let (body, keys) = body(size, bytes, length);
        let data = data(8 * size);
        let keys = asked(&mut Rng(1), keys);
        Input { theirs: rp::Prepared::new(&body, data.clone()), keys, data, next: 0 }
    }
    fn key(&mut self) -> usize {
        self.next += 1;
        if self.next >= self.keys.len() {
            self.next = 0;
        }
        self.next
    }
    fn ours(&mut self) -> u64 {
        let (k, mut answer) = (self.key(), [0; 4]);
        ours::get(self.theirs.bytes(), &self.data, &self.keys[k], None, &mut answer)
    }
    fn theirs(&mut self) -> bool {
        let k = self.key();
        self.theirs.get_raw(&self.keys[k], None).is_some()
    }
}

fn shuffled(r: &mut Rng, mut keys: Vec<Vec<u8>>) -> Vec<Vec<u8>> {
    for i in (1..keys.len()).rev() {
        keys.swap(i, r.below(i as u64 + 1) as usize);
    }
    keys
}

impl<const BYTES: usize> Bench for Hit<BYTES> {
    type Input = Input;
    const NAME: &'static str = of_keys(BYTES, "get, there", "get, there, 13 bytes");
    const BUFFERS: &'static str = "the Rust copies the value (8 bytes) into a Vec";
    const PLOTTED: bool = BYTES == 16;

    fn input(size: usize) -> Input {
        Input::new(size, BYTES, 8, shuffled)
    }
    fn ours(i: &mut Input) {
        assert!(i.ours() == 0);
    }
    fn theirs(i: &mut Input) {
        assert!(i.theirs());
    }
}

impl Bench for Empty {
    type Input = Input;
    const NAME: &'static str = "get, there, no value";

    fn input(size: usize) -> Input {
        Input::new(size, 16, 0, shuffled)
    }
    fn ours(i: &mut Input) {
        assert!(i.ours() == 0);
    }
    fn theirs(i: &mut Input) {
        assert!(i.theirs());
    }
}

impl<const BYTES: usize> Bench for Miss<BYTES> {
    type Input = Input;
    const NAME: &'static str = of_keys(BYTES, "get, not there", "get, not there, 13 bytes");
    const PLOTTED: bool = BYTES == 16;

    fn input(size: usize) -> Input {
        Input::new(size, BYTES, 8, |r, keys| keys.iter().map(|_| r.bytes(BYTES)).collect())
    }
    fn ours(i: &mut Input) {
        assert!(i.ours() == 1);
    }
    fn theirs(i: &mut Input) {
        assert!(!i.theirs());
    }
}
