//! The calls with memory for their answers, and a refusal as an error.
use crate::{Refusal, sys};

/// The refusal of a number that a call gave.
pub fn refused(number: u64) -> Refusal {
    Refusal::from_number(number).expect("proved: no call refuses with a number that is not in the table")
}

/// What a number comes to: 0 for the answer, else the refusal.
fn taken<T>(number: u64, answer: T) -> Result<T, Refusal> {
    if number == 0 { Ok(answer) } else { Err(refused(number)) }
}

/// A record as the builder's call takes it, without the memory.
pub struct Added<'a> {
    pub kind: u8,
    pub key: &'a [u8],
    pub length: u64,
    pub sequence: u64,
    pub new_key: bool,
}

/// Adds a record: the place of its offset.
pub fn add(buffer: &mut [u8], state: &mut [u64; 3], record: &Added<'_>) -> Result<u64, Refusal> {
    let Added { kind, key, length, sequence, new_key } = *record;
    let mut answer = [0];
    let number = sys::add(buffer, state, key, kind, length, sequence, new_key as u8, &mut answer);
    taken(number, answer[0])
}

/// Sets the offset of the last record.
pub fn set_offset(buffer: &mut [u8], state: &[u64; 3], place: u64, offset: u64) -> Result<(), Refusal> {
    taken(sys::set_offset(buffer, state, place, offset), ())
}

/// Finishes an arena: the body's length.
pub fn finish(arena: &[u8], out: &mut [u8], wide: &mut [u64], narrow: &mut [u32]) -> Result<u64, Refusal> {
    let mut answer = [0];
    let number = sys::finish(arena, out, wide, narrow, &mut answer);
    taken(number, answer[0])
}

/// Validates a body for data of a length.
pub fn validate(body: &[u8], data_length: u64) -> Result<(), Refusal> {
    taken(sys::validate(body, data_length), ())
}

/// The key's record within the limit: kind, sequence, offset, length. Of kind 2, a tombstone, there is no value.
pub fn get(body: &[u8], data: &[u8], key: &[u8], limit: Option<u64>) -> Result<Option<[u64; 4]>, Refusal> {
    let mut answer = [0; 4];
    match sys::get(body, data, key, limit, &mut answer) {
        1 => Ok(None),
        number => taken(number, Some(answer)),
    }
}

/// Builds a filter: the bytes written.
pub fn filter_build(hashes: &mut [u64], wide: &mut [u64], narrow: &mut [u32], out: &mut [u8]) -> Result<u64, Refusal> {
    let mut answer = [0];
    let number = sys::filter_build(hashes, wide, narrow, out, &mut answer);
    taken(number, answer[0])
}

/// Reads a filter: form, keys, seed, segment, count, cells.
pub fn filter_read(bytes: &[u8]) -> Result<[u64; 6], Refusal> {
    let mut answer = [0; 6];
    let number = sys::filter_read(bytes, &mut answer);
    taken(number, answer)
}

/// Asks a filter for a hash: whether it may be there.
pub fn filter_ask(bytes: &[u8], hash: u64) -> Result<bool, Refusal> {
    match sys::filter_ask(bytes, hash) {
        0 => Ok(false),
        1 => Ok(true),
        number => Err(refused(number)),
    }
}

/// Asks a filter for hashes: a byte for each, 0 absent or 1 maybe.
pub fn filter_ask_all(bytes: &[u8], hashes: &[u64], answers: &mut [u8]) -> Result<(), Refusal> {
    taken(sys::filter_ask_all(bytes, hashes, answers), ())
}

/// Lists an input: the text's length, also where the text is a refusal.
pub fn listing(input: &[u8], out: &mut [u8]) -> Result<u64, Refusal> {
    let mut answer = [0];
    let number = sys::listing(input, out, &mut answer);
    taken(number, answer[0])
}
