//! The keys that no attempt of finish could place together: those with equal hashes, for a list that it refuses for
//! [`Refusal::ATTEMPTS`](crate::Refusal::ATTEMPTS). Plain Rust, and not proved.
use crate::sys::{hash, mix};

/// The seeds that finish tries, one an attempt.
const ATTEMPTS: usize = 8;
/// The step between the numbers that the seeds are mixed from.
const STEP: u64 = 0x9e37_79b9_7f4a_7c15;

/// Two keys with equal hashes under a seed.
pub type Pair<'k> = (&'k [u8], &'k [u8]);

/// The pairs of keys with equal hashes, attempt by attempt. An attempt that has one fails; where all eight fail,
/// finish refuses the list ([`Refusal::ATTEMPTS`](crate::Refusal::ATTEMPTS)).
///
/// ```
/// use wobarelind::{Kind, PointBuilder, Refusal};
///
/// let mut builder = PointBuilder::new();
/// for key in ["T0410-2024110300", "T0413-2024110308", "T0415-2024110308", "T0416-2024110300"] {
///     builder.add(Kind::Put, key.as_bytes(), 0, 1, true)?;
/// }
/// assert_eq!(builder.finish_legacy(), Err(Refusal::ATTEMPTS));
/// let equal = builder.equal_hashes();
/// assert_eq!(equal.fewest(), [(&b"T0415-2024110308"[..], &b"T0416-2024110300"[..])]);
/// # Ok::<(), Refusal>(())
/// ```
#[derive(Clone, Debug, PartialEq, Eq)]
pub struct EqualHashes<'k> {
    /// The pairs of each attempt. Of more than two keys with one hash each but the first is the second of one pair.
    /// No pair, after a refusal: that attempt found no pilot. It is not to be expected; keep the list and report it.
    pub attempts: [Vec<Pair<'k>>; ATTEMPTS],
}

impl<'k> EqualHashes<'k> {
    /// The pairs of the attempt that has the fewest. With the second key of each, and all its versions, in another
    /// index, that attempt has no equal hashes left, and finish can be expected to place the rest.
    pub fn fewest(&self) -> &[Pair<'k>] {
        self.attempts.iter().min_by_key(|pairs| pairs.len()).expect("there are eight")
    }
}

/// The keys of a list that have equal hashes. A [`PointBuilder`](crate::PointBuilder) knows its own.
pub fn equal_hashes<'k>(keys: &[&'k [u8]]) -> EqualHashes<'k> {
    EqualHashes { attempts: std::array::from_fn(|attempt| pairs(keys, mix(STEP.wrapping_mul(attempt as u64 + 1)))) }
}

/// The pairs under a seed: neighbours, once the keys are sorted by their hashes.
fn pairs<'k>(keys: &[&'k [u8]], seed: u64) -> Vec<Pair<'k>> {
    let mut hashed: Vec<(u64, &[u8])> = keys.iter().map(|&key| (hash(key, seed), key)).collect();
    hashed.sort_unstable();
    hashed.windows(2).filter(|two| two[0].0 == two[1].0).map(|two| (two[0].1, two[1].1)).collect()
}
