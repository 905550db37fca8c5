//! kiban_validate, on the very bytes that the Rust's index holds (those before its trailer). Ours checks the header too.
use super::{Bench, body, of_keys};
use crate::ours;
use oracle::{data, rp};

pub struct Validate<const BYTES: usize>;

pub struct Input {
    length: u64,
    theirs: rp::Prepared,
}

impl<const BYTES: usize> Bench for Validate<BYTES> {
    type Input = Input;
    const NAME: &'static str = of_keys(BYTES, "validate", "validate, 13 bytes");
    const WHOLE: bool = true;
    const PLOTTED: bool = BYTES == 16;

    fn input(size: usize) -> Input {
        let (body, _) = body(size, BYTES, 8);
        Input { theirs: rp::Prepared::with_trailer(&body, data(8 * size)), length: 8 * size as u64 }
    }
    fn ours(i: &mut Input) {
        let bytes = i.theirs.bytes();
        assert!(ours::validate(&bytes[..bytes.len() - 5], i.length) == 0);
    }
    fn theirs(i: &mut Input) {
        assert!(i.theirs.validate());
    }
}
