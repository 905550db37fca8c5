//! The point index: built from records, validated, read.
use crate::{EqualHashes, Refusal, calls, equal_hashes};
use std::fmt;

/// A record's kind.
#[derive(Clone, Copy, Debug, PartialEq, Eq)]
pub enum Kind {
    Put,
    Tombstone,
}

impl Kind {
    /// The byte that stands for the kind in a body.
    pub fn to_u8(self) -> u8 {
        match self {
            Kind::Put => 1,
            Kind::Tombstone => 2,
        }
    }

    /// The kind that a byte stands for; 1 and 2 alone do.
    pub fn from_u8(byte: u8) -> Option<Kind> {
        match byte {
            1 => Some(Kind::Put),
            2 => Some(Kind::Tombstone),
            _ => None,
        }
    }
}

/// The fewest bytes of a key in an arena: its lengths, and one version.
const LEAST_ENTRY: usize = 8 + VERSION;
/// The bytes of a version.
const VERSION: usize = 21;
/// The most keys of an index that finish writes.
const MOST_KEYS: usize = 65_536;

/// Takes records, the keys rising and each key's versions newest first.
#[derive(Clone, Debug, Default)]
pub struct PointBuilder {
    buffer: Vec<u8>,
    /// Used bytes, keys, the place of the last key.
    state: [u64; 3],
}

impl PointBuilder {
    /// The empty builder.
    pub fn new() -> Self {
        Self::default()
    }

    /// The bytes that the records take.
    pub fn arena(&self) -> &[u8] {
        &self.buffer[..self.used()]
    }

    /// How many keys were added.
    pub fn keys(&self) -> usize {
        self.state[1] as usize
    }

    /// Adds a record with a value of `length` bytes: the place to hand to [`Self::set_value_offset`]; the offset is 0
    /// till then. `new_key` is false for a further version of the last key. A refusal leaves the builder as it was.
    pub fn add(&mut self, kind: Kind, key: &[u8], length: u64, seq: u64, new_key: bool) -> Result<usize, Refusal> {
        let record = calls::Added { kind: kind.to_u8(), key, length, sequence: seq, new_key };
        let mut added = calls::add(&mut self.buffer, &mut self.state, &record);
        if added == Err(Refusal::BUFFER) {
            self.make_room(LEAST_ENTRY + key.len());
            added = calls::add(&mut self.buffer, &mut self.state, &record);
        }
        added.map(|place| place as usize)
    }

    /// Sets the value offset of the last record, at the place that [`Self::add`] gave for it.
    pub fn set_value_offset(&mut self, patch: usize, value_offset: u64) -> Result<(), Refusal> {
        calls::set_offset(&mut self.buffer, &self.state, patch as u64, value_offset)
    }

    /// The body of the records added: an index file without its trailer, which [`with_trailer`](crate::with_trailer)
    /// adds. At [`Refusal::ATTEMPTS`], [`Self::equal_hashes`] names the keys that stand in the way.
    pub fn finish_legacy(&self) -> Result<Vec<u8>, Refusal> {
        finish_keys(self.arena(), self.keys())
    }

    /// The keys added that have equal hashes, under each seed that finish tries.
    pub fn equal_hashes(&self) -> EqualHashes<'_> {
        equal_hashes(&self.key_list())
    }

    /// The keys added, in their order.
    fn key_list(&self) -> Vec<&[u8]> {
        let mut keys = Vec::with_capacity(self.keys());
        let mut rest = self.arena();
        while !rest.is_empty() {
            let field = |at: usize| u32::from_le_bytes([rest[at], rest[at + 1], rest[at + 2], rest[at + 3]]) as usize;
            let (length, versions) = (field(0), field(4));
            keys.push(&rest[8..8 + length]);
            rest = &rest[8 + length + VERSION * versions..];
        }
        keys
    }

    /// How many bytes of the buffer are used.
    fn used(&self) -> usize {
        self.state[0] as usize
    }

    /// Lengthens the buffer to hold `more` bytes past the used ones, at least to twice its length.
    fn make_room(&mut self, more: usize) {
        let length = (self.used() + more).max(2 * self.buffer.len());
        self.buffer.resize(length, 0);
    }
}

/// The body of an arena from elsewhere. A [`PointBuilder`] finishes its own. At [`Refusal::ATTEMPTS`], [`equal_hashes`]
/// names the keys of a list.
pub fn finish(arena: &[u8]) -> Result<Vec<u8>, Refusal> {
    finish_keys(arena, (arena.len() / LEAST_ENTRY).min(MOST_KEYS))
}

/// The body of an arena that has at most `n` keys: room for `n`, and what isn't written cut off.
fn finish_keys(arena: &[u8], n: usize) -> Result<Vec<u8>, Refusal> {
    let mut out = vec![0; 32 + 4 * n.div_ceil(3) + 12 * n + arena.len()];
    let (mut wide, mut narrow) = (vec![0; 2 * n], vec![0; 8 * n + 8]);
    let written = calls::finish(arena, &mut out, &mut wide, &mut narrow)?;
    out.truncate(written as usize);
    Ok(out)
}

/// Whether a body is an index for data of a length, which need not be in memory. [`LegacyIndex::decode`] does it first.
pub fn validate(body: &[u8], data_length: u64) -> Result<(), Refusal> {
    calls::validate(body, data_length)
}

/// What a lookup in a validated body comes to. Only a put has a value.
#[must_use]
#[derive(Clone, Copy, Debug, PartialEq, Eq)]
pub enum Answer<'d> {
    /// A put: its value, that part of the data, which starts at `offset`.
    Put { seq: u64, offset: u64, value: &'d [u8] },
    /// A tombstone: the key was withdrawn at `seq` and has no value.
    Withdrawn { seq: u64 },
    /// No record within the limit.
    Nothing,
}

impl<'d> Answer<'d> {
    /// A put's value, and no other.
    pub fn value(self) -> Option<&'d [u8]> {
        match self {
            Answer::Put { value, .. } => Some(value),
            Answer::Withdrawn { .. } | Answer::Nothing => None,
        }
    }
}

/// A validated body beside its data. Only such a body is asked: a lookup in bytes that validation refuses could give a
/// figure that was withdrawn, as where a tool wrote a key's versions oldest first.
///
/// An answer borrows from the data. It may outlive the index and the body, and cannot outlive the data:
///
/// ```compile_fail,E0597
/// # let mut builder = wobarelind::PointBuilder::new();
/// # builder.add(wobarelind::Kind::Put, b"A", 8, 9, true).unwrap();
/// # let body = builder.finish_legacy().unwrap();
/// let answer;
/// {
///     let data = vec![0; 8];
///     answer = wobarelind::LegacyIndex::decode(&body, &data).unwrap().get(b"A", None);
/// }
/// assert_eq!(answer.value(), Some(&[0; 8][..]));
/// ```
#[derive(Clone, Copy)]
pub struct LegacyIndex<'b, 'd> {
    body: &'b [u8],
    data: &'d [u8],
}

impl<'b, 'd> LegacyIndex<'b, 'd> {
    /// Validates a body for its data. The trailer of an index file is no part of the body: [`body_of`](crate::body_of)
    /// tests it and cuts it off.
    pub fn decode(body: &'b [u8], data: &'d [u8]) -> Result<Self, Refusal> {
        validate(body, data.len() as u64)?;
        Ok(Self { body, data })
    }

    /// The key's record of greatest sequence within the limit. Past the limit it may have been corrected or withdrawn:
    /// what stands now is asked without a limit.
    pub fn get(&self, key: &[u8], limit: Option<u64>) -> Answer<'d> {
        let found = calls::get(self.body, self.data, key, limit);
        let Some([kind, seq, offset, length]) = found.expect("proved: a lookup never refuses a validated body") else {
            return Answer::Nothing;
        };
        match Kind::from_u8(kind as u8).expect("proved: a record's kind is put or tombstone") {
            Kind::Put => Answer::Put { seq, offset, value: &self.data[offset as usize..(offset + length) as usize] },
            Kind::Tombstone => Answer::Withdrawn { seq },
        }
    }
}

/// The lengths alone: the data also holds figures that were withdrawn.
impl fmt::Debug for LegacyIndex<'_, '_> {
    fn fmt(&self, f: &mut fmt::Formatter<'_>) -> fmt::Result {
        write!(f, "LegacyIndex(a body of {} bytes, data of {})", self.body.len(), self.data.len())
    }
}
