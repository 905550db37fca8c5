//! The package's trailer beside the Rust's: made behind drawn bodies, and changed.
use crate::table::Line;
use oracle::{Rng, rp};
use wobarelind::{body_of, with_trailer};

/// So many bodies are drawn.
const BODIES: u64 = 500;

/// Whether both sides say the same of a file, and that it is what is said here.
fn file(line: &mut Line, bytes: &[u8], right: bool) {
    let (ours, theirs) = (body_of(bytes).is_ok(), rp::trailer_message(bytes).is_none());
    line.count(ours == right && theirs == right, || {
        format!("trailer of {}: accepted by ours {ours}, by the Rust {theirs}, wanted {right}", oracle::hex(bytes))
    });
}

/// A body's file as both sides write it, then with a bit changed in the body and in each byte of the trailer, and cut.
fn body(line: &mut Line, r: &mut Rng, body: &[u8]) {
    let made = with_trailer(body);
    line.count(made == rp::with_trailer(body), || format!("trailer made of {}", oracle::hex(body)));
    file(line, &made, !body.is_empty());
    let last = made.len() - 5;
    for at in [r.below(made.len() as u64) as usize, last, last + 1, last + 2, last + 3, last + 4] {
        let mut changed = made.clone();
        changed[at] ^= 1 << r.below(8);
        file(line, &changed, false);
    }
    file(line, &made[..made.len() - 1], false);
    file(line, &made[..made.len() - 5], false);
}

/// Files too short for a trailer, then so many bodies, the first ones of each length from 0 on.
pub fn check() -> Line {
    Line::timed("trailers", |line| {
        let mut r = Rng(BODIES);
        (0..6).for_each(|n| file(line, &vec![0; n], false));
        for i in 0..BODIES {
            let bytes = r.bytes(if i < 64 { i as usize } else { 1 << (i % 13) });
            body(line, &mut r, &bytes);
        }
    })
}
