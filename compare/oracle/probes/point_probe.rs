//! Appended child module of point.rs: hands its private items out. Nothing here recomputes anything of the index,
//! except `get_on`, which builds LegacyIndex from the header as decode does (decode itself always ends in
//! validate_backing_records, which document 01 leaves out).
pub use super::super::Kind as RKind;
use super::*;
use std::sync::Arc;

pub const STEP: u64 = super::STEP;
pub fn mix(h: u64) -> u64 {
    super::mix(h)
}
pub fn hash(key: &[u8], seed: u64) -> u64 {
    super::hash(key, seed)
}
pub fn fingerprint(h: u64) -> u16 {
    super::fingerprint(h)
}
pub fn bucket(h: u64, count: usize) -> usize {
    super::bucket(h, count)
}
pub fn position(h: u64, pilot: u32, n: usize) -> usize {
    super::position(h, pilot, n)
}
pub fn construct(keys: &[&[u8]]) -> Result<(u64, Vec<u32>, Vec<usize>), String> {
    super::construct(keys).map_err(|e| e.to_string())
}

pub struct Legacy(PointBuilder);
impl Legacy {
    pub fn new() -> Self {
        Legacy(PointBuilder::legacy())
    }
    pub fn add(&mut self, kind: Kind, key: &[u8], value: &[u8], seq: u64, new_key: bool) -> Result<usize, String> {
        self.0.add(kind, key, value, seq, new_key).map_err(|e| e.to_string())
    }
    pub fn set_value_offset(&mut self, patch: usize, offset: u64) {
        self.0.set_value_offset(patch, offset)
    }
    pub fn arena(&self) -> &[u8] {
        &self.0.arena
    }
    pub fn heads(&self) -> &[usize] {
        &self.0.heads
    }
    pub fn range(&self) -> (usize, u64, u64) {
        (self.0.versions, self.0.min_seq, self.0.max_seq)
    }
    /// The index with its five trailer bytes, as the store writes it.
    pub fn finish_file(self) -> Result<Vec<u8>, String> {
        self.0.finish_legacy().map_err(|e| e.to_string())
    }
    /// The index without its five trailer bytes: a body.
    pub fn finish(self) -> Result<Vec<u8>, String> {
        let mut b = self.finish_file()?;
        b.truncate(b.len() - 5);
        Ok(b)
    }
}

/// What verify_trailer says of an index with its trailer; nothing where it accepts.
pub fn trailer_message(file: &[u8]) -> Option<String> {
    super::super::reader::verify_trailer(file, "point index").err().map(|e| e.to_string())
}
/// A body with its trailer, as the store writes an index.
pub fn with_trailer(body: &[u8]) -> Vec<u8> {
    let mut b = body.to_vec();
    b.push(0);
    let c = crate::crc32::crc32(&b);
    b.extend_from_slice(&c.to_le_bytes());
    b
}
fn zeros(len: usize) -> Arc<[u8]> {
    unsafe { Arc::<[u8]>::new_zeroed_slice(len).assume_init() }
}
fn reservation() -> ResidentReservation {
    Arc::new(crate::cache::BlockCache::new(0)).reserve_point(0).unwrap()
}

/// LegacyIndex::decode on body + trailer with no blocks: what it says. A body that passes everything up to and
/// including `validate` always ends in "point and sorted record coverage differ" (its arena is not empty).
pub fn decode_message(body: &[u8], data_len: usize) -> String {
    match LegacyIndex::decode(with_trailer(body).into(), zeros(data_len), reservation(), std::iter::empty()) {
        Ok(_) => "accepted with no blocks".into(),
        Err(e) => e.to_string(),
    }
}
/// Document 01's number for what decode says; 0 = accepted.
pub fn validate_number(body: &[u8], data_len: usize) -> u32 {
    let m = decode_message(body, data_len);
    match m.strip_prefix("sstable corrupt: ").unwrap_or(&m) {
        "unknown point index block type" if body.is_empty() => 20, // verify_trailer wants one byte before the trailer
        "point index: unsupported header" => 20,
        "point index: invalid section dimensions" => 21,
        "point index: singleton slot out of bounds" => 22,
        "point index: truncated key header" => 23,
        "point index: invalid key length or version count" => 24,
        "point index: keys are not strictly increasing" => 25,
        "point index: slot does not identify its full-key record" => 26,
        "point index: truncated version header" => 27,
        "point index: invalid record kind" => 28,
        "point index: invalid value length or version ordering" => 29,
        "point index: record arena has trailing bytes" => 30,
        "point index: point and sorted record coverage differ" => 0,
        other => panic!("no number for: {other}"),
    }
}

pub enum Got {
    Nothing,
    Panicked,
    Refused,
    Found(Kind, u64, Vec<u8>),
}
/// LegacyIndex::get on a body (no trailer bytes, so that reading past the body panics). Bodies that fail decode's
/// header or dimension checks are `Refused`; a panic of the Rust (its get trusts validated bytes) is `Panicked`.
pub fn get_on(body: &[u8], data: Arc<[u8]>, key: &[u8], limit: Option<u64>) -> Got {
    let v = validate_number(body, data.len());
    if v == 20 || v == 21 {
        return Got::Refused;
    }
    let index = Prepared::new(body, data);
    index.get(key, limit)
}
pub struct Prepared(LegacyIndex);
impl Prepared {
    pub fn new(body: &[u8], data: Arc<[u8]>) -> Self {
        Prepared(LegacyIndex {
            seed: u64_at(body, 8),
            count: u32_at(body, 16) as usize,
            buckets: u32_at(body, 20) as usize,
            arena: u64_at(body, 24) as usize,
            bytes: body.into(),
            data,
            blocks: Vec::new(),
            _reservation: reservation(),
        })
    }
    /// The index with its trailer, as decode holds it (for timing `validate`).
    pub fn with_trailer(body: &[u8], data: Arc<[u8]>) -> Self {
        let mut p = Self::new(body, data);
        p.0.bytes = with_trailer(body).into();
        p
    }
    /// The bytes that the index holds.
    pub fn bytes(&self) -> &[u8] {
        &self.0.bytes
    }
    pub fn validate(&self) -> bool {
        self.0.validate().is_ok()
    }
    pub fn get_raw(&self, key: &[u8], limit: Option<u64>) -> Option<(Kind, u64, Vec<u8>)> {
        self.0.get(key, limit).map(|f| (f.kind, f.seq, f.value))
    }
    pub fn get(&self, key: &[u8], limit: Option<u64>) -> Got {
        match crate::caught(|| self.0.get(key, limit)) {
            None => Got::Panicked,
            Some(None) => Got::Nothing,
            Some(Some(f)) => Got::Found(f.kind, f.seq, f.value),
        }
    }
}
