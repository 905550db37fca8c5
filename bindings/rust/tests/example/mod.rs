//! Document 01's example: keys A, B and C beside data of 116 bytes.
use wobarelind::{Kind, PointBuilder, Refusal};

/// The example's data: byte i is i.
pub fn data() -> Vec<u8> {
    (0..116).collect()
}

/// Adds a record and sets its offset.
pub fn put(
    to: &mut PointBuilder,
    kind: Kind,
    key: &[u8],
    length: u64,
    offset: u64,
    seq: u64,
    new_key: bool,
) -> Result<(), Refusal> {
    let patch = to.add(kind, key, length, seq, new_key)?;
    to.set_value_offset(patch, offset)
}

/// The example's body.
pub fn body() -> Vec<u8> {
    let mut builder = PointBuilder::new();
    for (kind, key, length, offset, seq, new_key) in [
        (Kind::Put, b"A", 8, 100, 9, true),
        (Kind::Put, b"A", 8, 40, 4, false),
        (Kind::Tombstone, b"B", 0, 108, 7, true),
        (Kind::Put, b"B", 8, 60, 3, false),
        (Kind::Put, b"C", 8, 108, 12, true),
    ] {
        put(&mut builder, kind, key, length, offset, seq, new_key).expect("the example is a list that is taken");
    }
    builder.finish_legacy().expect("the example is placed")
}

/// The example's body with other bytes at a place.
pub fn patched(at: usize, bytes: &[u8]) -> Vec<u8> {
    let mut body = body();
    body[at..at + bytes.len()].copy_from_slice(bytes);
    body
}
