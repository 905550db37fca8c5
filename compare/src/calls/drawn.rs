//! What several calls draw: record lists, their bodies, whole and damaged; hashes; lengths; lent memory that isn't zero.
use oracle::check::{damage, random_list};
use oracle::lines::{Rec, rust_builder, rust_finish};
use oracle::{Rng, hunt, paper};
use std::cell::RefCell;
use std::rc::Rc;

/// The data length that the example's records need.
pub const EXAMPLE_DATA: u64 = 116;

/// Document 01's example: its body cut at every place, with each byte changed in four ways, and with one more byte; its
/// pilot made a direct one, of the last slot and of the one past it; its second key made the first.
pub fn example_bodies() -> Vec<Vec<u8>> {
    let whole = rust_finish(&oracle::check::example()).unwrap();
    let changed = |at: usize, bytes: &[u8]| {
        let mut body = whole.clone();
        body[at..at + bytes.len()].copy_from_slice(bytes);
        body
    };
    let cuts = (0..=whole.len()).map(|n| whole[..n].to_vec());
    let bytes = (0..whole.len()).flat_map(|at| [whole[at] ^ 1, whole[at] ^ 128, 0, 255].map(|b| changed(at, &[b])));
    let longer = [&whole[..], &[0]].concat();
    let direct = [2u32, 3].map(|slot| changed(32, &((1 << 31) + slot).to_le_bytes()));
    cuts.chain(bytes).chain([longer]).chain(direct).chain([changed(131, b"A")]).collect()
}

/// A body of one key with one put, and the length of its data: key, value length and offset at their limits and past them.
pub fn edge_bodies() -> Vec<(Vec<u8>, u64)> {
    let body = |key: &[u8], length: u32, offset: u64| {
        let seed = paper::seed_of(0);
        let mut body = b"KIBANPH2".to_vec();
        body.extend(seed.to_le_bytes());
        [1, 1, 48, 0, 1 << 31, 0, 0].iter().for_each(|x: &u32| body.extend(x.to_le_bytes()));
        body.extend((paper::fingerprint(paper::hash(key, seed)) as u32).to_le_bytes());
        [key.len() as u32, 1].iter().for_each(|x| body.extend(x.to_le_bytes()));
        body.extend(key);
        body.extend(7u64.to_le_bytes());
        body.push(1);
        body.extend(length.to_le_bytes());
        body.extend(offset.to_le_bytes());
        body
    };
    let most = 16_777_216;
    let values = [(most, 0), (most, 1), (most + 1, 0), (0, 16_777_217), (0, 16_777_218), (1, u64::MAX), (0, u64::MAX)];
    let keys = [0, 1, 1_048_576, 1_048_577].map(|n| (body(&vec![7; n], 0, 0), 0));
    keys.into_iter().chain(values.map(|(length, offset)| (body(b"K", length, offset), 16_777_217))).collect()
}

/// A list that add takes, and the length of the data, in which its records lie.
pub fn list(r: &mut Rng) -> (Vec<Rec>, u64) {
    let keys = match r.below(12) {
        0..3 => 1 + r.below(3),
        3..10 => 1 + r.below(30),
        10 => 40 + r.below(200),
        _ => 200 + r.below(800),
    };
    let data = [0, 1, 8, 100, 1000][r.below(5) as usize];
    let style = r.next();
    (random_list(r, keys as usize, data, style), data)
}

/// The arena of these keys, one empty put each.
pub fn arena_of(keys: Vec<Vec<u8>>) -> Vec<u8> {
    let recs: Vec<Rec> =
        keys.into_iter().map(|key| Rec { new: true, kind: 1, key, seq: 1, len: 0, offset: 0 }).collect();
    rust_builder(&recs).unwrap().arena().to_vec()
}

/// An arena; now and then of keys that earlier attempts can't place.
pub fn arena(r: &mut Rng) -> Vec<u8> {
    match r.below(12) {
        0 => {
            let attempt = r.below(9);
            arena_of(hunt::keys_for_attempt(attempt, r))
        }
        _ => rust_builder(&list(r).0).unwrap().arena().to_vec(),
    }
}

/// A body, the length of its data, and its records.
type Made = (Vec<u8>, u64, Rc<[Rec]>);
thread_local! { static LAST: RefCell<Option<Made>> = const { RefCell::new(None) }; }

/// Forgets the last body, so that a block's cases hang on its generator alone.
pub fn forget() {
    LAST.set(None);
}
/// A body that finish made: a new one in one case of four, else the last one again (making one takes most of a case's time).
pub fn body(r: &mut Rng) -> Made {
    let again = r.below(4) > 0;
    if let Some(last) = LAST.with_borrow(|last| last.clone().filter(|_| again)) {
        return last;
    }
    let made = new_body(r);
    LAST.set(Some(made.clone()));
    made
}
fn new_body(r: &mut Rng) -> Made {
    loop {
        let (recs, data) = list(r);
        if let Ok(body) = rust_finish(&recs) {
            return (body, data, recs.into());
        }
    }
}

/// The front of one body and the rest of another, or of itself from another place.
fn spliced(r: &mut Rng, body: &[u8]) -> Vec<u8> {
    let other = if r.below(2) == 0 { body.to_vec() } else { self::body(r).0 };
    let at = r.below(body.len() as u64) as usize;
    let from = if r.below(2) == 0 { at.min(other.len()) } else { r.below(other.len() as u64) as usize };
    [&body[..at], &other[from..]].concat()
}

/// The same, damaged three times in four.
pub fn any_body(r: &mut Rng) -> Made {
    let (body, data, recs) = body(r);
    let seen = if r.below(4) == 0 { r.below(data + 2) } else { data };
    let body = match r.below(8) {
        0 | 1 => body,
        2 => spliced(r, &body),
        _ => damage(r, &body),
    };
    (body, seen, recs)
}

/// Hashes: random, close together, or with two that are equal.
pub fn hashes(r: &mut Rng) -> Vec<u64> {
    let n = match r.below(12) {
        0..8 => r.below(20),
        8..11 => r.below(400),
        _ => r.below(5000),
    };
    let low = r.next();
    let mut h: Vec<u64> = (0..n).map(|i| if low.is_multiple_of(4) { low.wrapping_add(i) } else { r.next() }).collect();
    if n > 1 && r.below(12) == 0 {
        h[0] = h[n as usize - 1];
    }
    h
}

/// A length around the one that is needed: mostly enough, at times one short, or none.
pub fn around(r: &mut Rng, needed: usize) -> usize {
    match r.below(12) {
        0 => needed.saturating_sub(1),
        1 => r.below(needed as u64 + 1) as usize,
        2..6 => needed + r.below(20) as usize,
        _ => needed,
    }
}

pub const FILL: u8 = 0xC3;
pub const FILL_WIDE: u64 = 0xC3C3_0000_C3C3_0001;
pub const FILL_NARROW: u32 = 0xC3C3_0001;
