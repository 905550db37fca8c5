//! Appended child module of filter.rs: hands its private items out.
use super::*;
pub fn mix(h: u64) -> u64 {
    super::mix(h)
}
pub struct Filter(SstFilter);
impl Filter {
    /// SstFilter::build (sorts the hashes, as the Rust does).
    pub fn build(hashes: &mut [u64]) -> Self {
        Filter(SstFilter::build(hashes))
    }
    pub fn encode(&self) -> Vec<u8> {
        self.0.encode()
    }
    pub fn decode(b: &[u8]) -> Option<Self> {
        SstFilter::decode(b).map(Filter)
    }
    pub fn maybe(&self, hash: u64) -> bool {
        match &self.0 {
            SstFilter::Fuse(f) => f.contains_hash(hash),
            SstFilter::Positive => true,
            _ => unreachable!(),
        }
    }
    pub fn is_positive(&self) -> bool {
        matches!(self.0, SstFilter::Positive)
    }
    /// (segment, count, cells, seed, keys)
    pub fn dims(&self) -> Option<(usize, usize, usize, u64, u64)> {
        match &self.0 {
            SstFilter::Fuse(f) => Some((f.segment, f.count_length / f.segment, f.fp.len(), f.seed, f.keys)),
            _ => None,
        }
    }
}
/// Fuse8::positions for given dimensions.
pub fn positions(h: u64, segment: usize, count: usize) -> [usize; 4] {
    Fuse8 { fp: Vec::new(), segment, count_length: count * segment, seed: 0, keys: 0 }.positions(h)
}
