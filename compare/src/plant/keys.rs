//! The keys of a body, read as far as they can be: also where validation refuses it.

/// So many versions of a key, the first and the last ones, give limits to ask with.
pub const VERSIONS: u64 = 8;

/// A key, how many versions its record says it has, and the sequences of those that give limits.
pub struct Key<'a> {
    pub bytes: &'a [u8],
    pub versions: u64,
    sequences: Vec<u64>,
}

/// The number in so many bytes, little-endian; none past the end.
fn number(bytes: &[u8], at: usize, width: usize) -> Option<u64> {
    let part = bytes.get(at..at.checked_add(width)?)?;
    Some(part.iter().rev().fold(0, |n, &b| n << 8 | b as u64))
}

/// Where the arena starts by the header, if that lies in the body.
pub fn arena_of(body: &[u8]) -> Option<&[u8]> {
    body.get(usize::try_from(number(body, 24, 8)?).ok()?..)
}

/// The key at a place, and the place of the next.
fn key_at(arena: &[u8], at: usize) -> Option<(Key<'_>, usize)> {
    let (length, versions) = (number(arena, at, 4)? as usize, number(arena, at + 4, 4)?);
    let first = at + 8 + length;
    let bytes = arena.get(at + 8..first)?;
    let held = versions.min((arena.len() - first) as u64 / 21);
    let asked = (0..held).filter(|&i| i < VERSIONS / 2 || i + VERSIONS / 2 >= held);
    let sequences = asked.filter_map(|i| number(arena, first + 21 * i as usize, 8)).collect();
    Some((Key { bytes, versions, sequences }, first + 21 * versions as usize))
}

/// The keys of an arena, up to the first that does not lie in it.
pub fn all(arena: &[u8]) -> Vec<Key<'_>> {
    let mut keys = Vec::new();
    let mut at = 0;
    while let Some((key, next)) = key_at(arena, at) {
        keys.push(key);
        at = next;
    }
    keys
}

impl Key<'_> {
    /// None, 0, 2^64 - 1, the limit that is given, and each of the sequences with its neighbours.
    pub fn limits(&self, given: u64) -> Vec<Option<u64>> {
        let around = self.sequences.iter().flat_map(|&s| [s.saturating_sub(1), s, s.saturating_add(1)]);
        let mut limits: Vec<u64> = [0, u64::MAX, given].into_iter().chain(around).collect();
        limits.sort_unstable();
        limits.dedup();
        std::iter::once(None).chain(limits.into_iter().map(Some)).collect()
    }
    /// Keys beside this one: a byte more, a bit of the first byte or of the last one changed.
    pub fn neighbours(&self) -> Vec<Vec<u8>> {
        let longer = [self.bytes, &[0]].concat();
        let changed = |at: usize, bit: u8| {
            let mut key = self.bytes.to_vec();
            key[at] ^= bit;
            key
        };
        match self.bytes.len() {
            0 => vec![longer],
            n => vec![longer, changed(0, 128), changed(n - 1, 1)],
        }
    }
}
