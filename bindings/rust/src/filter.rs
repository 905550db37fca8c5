//! The Fuse8 filter of hashes: built, read, asked.
use crate::{Refusal, calls};

/// The bytes in front of the cells.
const HEADER: usize = 48;

/// A filter of hashes, as its bytes. The host hashes the keys. The store takes XXH3 of the key, 64 bits (its
/// src/xxh3.rs, which is not carried over), and not [`sys::hash`](crate::sys::hash), the index's own: asked with
/// another hash than it was built from, a filter calls keys absent that are there.
#[derive(Clone, Debug, PartialEq, Eq)]
pub struct SstFilter {
    bytes: Vec<u8>,
}

/// The sizes of a Fuse filter.
#[derive(Clone, Copy, Debug, PartialEq, Eq)]
pub struct Sizes {
    pub keys: u64,
    pub seed: u64,
    pub segment: u64,
    /// Segments less three.
    pub count: u64,
    pub cells: u64,
}

/// At least the cells of a filter of `n` hashes, for `n` up to 65,536.
fn cells_at_most(n: usize) -> usize {
    if n == 0 { 0 } else { n + n / 4 + 256 }
}

/// The answer of a call on bytes that were built or accepted.
fn accepted<T>(answer: Result<T, Refusal>) -> T {
    answer.expect("proved: bytes that were built or accepted are read")
}

impl SstFilter {
    /// Builds the filter of hashes, which are left sorted unless it refuses. For a filter that the store is to ask they
    /// are XXH3 of the keys, not [`sys::hash`](crate::sys::hash).
    pub fn build(hashes: &mut [u64]) -> Result<Self, Refusal> {
        let n = hashes.len();
        let cells = cells_at_most(n);
        let (mut wide, mut narrow) = (vec![0; cells + n], vec![0; 2 * cells + n]);
        let mut bytes = vec![0; HEADER + cells];
        let written = calls::filter_build(hashes, &mut wide, &mut narrow, &mut bytes)?;
        bytes.truncate(written as usize);
        Ok(Self { bytes })
    }

    /// Takes a filter's bytes, as [`Self::encode`] gave them: a filter block of the store without its last five bytes,
    /// a trailer that is not an index's.
    pub fn decode(bytes: &[u8]) -> Result<Self, Refusal> {
        calls::filter_read(bytes)?;
        Ok(Self { bytes: bytes.to_vec() })
    }

    /// The filter's bytes.
    pub fn encode(&self) -> &[u8] {
        &self.bytes
    }

    /// The sizes of a Fuse filter; none of a Positive one, which calls nothing absent.
    pub fn sizes(&self) -> Option<Sizes> {
        let [form, keys, seed, segment, count, cells] = accepted(calls::filter_read(&self.bytes));
        (form == 1).then_some(Sizes { keys, seed, segment, count, cells })
    }

    /// Whether a hash may be among those that the filter was built from: false means that it is not. Of a filter of the
    /// store the hash is XXH3 of the key, not [`sys::hash`](crate::sys::hash).
    pub fn may_contain_hash(&self, hash: u64) -> bool {
        accepted(calls::filter_ask(&self.bytes, hash))
    }

    /// The same for each of the hashes; the header is read once.
    pub fn may_contain_hashes(&self, hashes: &[u64]) -> Vec<bool> {
        let mut answers = vec![0; hashes.len()];
        accepted(calls::filter_ask_all(&self.bytes, hashes, &mut answers));
        answers.iter().map(|&answer| answer == 1).collect()
    }
}

#[cfg(test)]
mod tests {
    use super::*;

    /// Workspace is tested before output: a call without output tells whether the workspace suffices, and does no more.
    #[test]
    fn the_room_suffices_for_every_count_of_hashes() {
        let mut hashes = vec![0; 65_536];
        let cells = cells_at_most(hashes.len());
        let (mut wide, mut narrow) = (vec![0; cells + hashes.len()], vec![0; 2 * cells + hashes.len()]);
        for n in 1..=hashes.len() {
            let cells = cells_at_most(n);
            let refused =
                calls::filter_build(&mut hashes[..n], &mut wide[..cells + n], &mut narrow[..2 * cells + n], &mut []);
            assert_eq!(refused, Err(Refusal::BUFFER), "{n} hashes");
        }
    }
}
