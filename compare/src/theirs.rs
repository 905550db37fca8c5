//! The Rust, one function for each of ours, with the paper's refusals where the Rust has none and those of the boundary
//! (DECISIONS.md): a short answer 6, a short state 1, a bad kind 28. Not inlined, as a call of ours can't be.
use oracle::lines::rust_finish_arena;
use oracle::{data, hex, paper, rf, rp};
use std::sync::Arc;

/// Values to be added: only their length matters.
static VALUE: [u8; 16_777_217] = [0; 16_777_217];

#[inline(never)]
pub fn mix(h: u64) -> u64 {
    rp::mix(h)
}
#[inline(never)]
pub fn hash(key: &[u8], seed: u64) -> u64 {
    rp::hash(key, seed)
}

fn state(words: &[u64]) -> paper::State {
    paper::State { used: words[0], keys: words[1], head: words[2] }
}
#[allow(clippy::too_many_arguments)]
pub fn add(
    buffer: &mut [u8],
    words: &[u64],
    key: &[u8],
    kind: u8,
    length: u64,
    sequence: u64,
    new_key: u8,
    answers: usize,
) -> Result<(paper::State, u64), u64> {
    if answers < 1 {
        return Err(6);
    }
    if words.len() < 3 {
        return Err(1);
    }
    if kind != 1 && kind != 2 {
        return Err(28);
    }
    paper::add(state(words), buffer, new_key != 0, kind, key, length, sequence).map_err(|n| n as u64)
}
pub fn set_offset(buffer: &mut [u8], words: &[u64], place: u64, offset: u64) -> u64 {
    if words.len() < 3 {
        return 1;
    }
    paper::set_offset(state(words), buffer, place, offset).err().unwrap_or(0) as u64
}
/// The Rust's builder, beside the paper's on a buffer, which says what is refused.
pub struct Builder {
    theirs: rp::Legacy,
    state: paper::State,
    buffer: Vec<u8>,
}
impl Builder {
    pub fn new(buffer: Vec<u8>) -> Self {
        Builder { theirs: rp::Legacy::new(), state: paper::State::default(), buffer }
    }
    /// The Rust's place of the record's offset, or the paper's refusal; 2 is the Rust's too.
    pub fn add(&mut self, key: &[u8], kind: u8, length: u64, sequence: u64, new_key: bool) -> Result<u64, u64> {
        let taken = paper::add(self.state, &mut self.buffer, new_key, kind, key, length, sequence);
        if !matches!(taken, Ok(_) | Err(2)) {
            return Err(taken.unwrap_err() as u64);
        }
        let value = &VALUE[..length.min(VALUE.len() as u64) as usize];
        let place = self.theirs.add(oracle::Kind::from_u8(kind).expect("kind"), key, value, sequence, new_key);
        self.state = taken.map_or(self.state, |t| t.0);
        place.map(|p| p as u64).map_err(|_| 2)
    }
    pub fn set_offset(&mut self, place: u64, offset: u64) -> u64 {
        match paper::set_offset(self.state, &mut self.buffer, place, offset) {
            Ok(()) => self.theirs.set_value_offset(place as usize, offset),
            Err(number) => return number as u64,
        }
        0
    }
    pub fn arena(&self) -> &[u8] {
        self.theirs.arena()
    }
    /// The Rust's: bytes used, keys, and the last one's place.
    pub fn state(&self) -> [u64; 3] {
        let heads = self.theirs.heads();
        [self.arena().len() as u64, heads.len() as u64, heads.last().copied().unwrap_or(0) as u64]
    }
}
/// The body, or the first refusal in the order 8, 5, 9, 6, 10.
pub fn finish(arena: &[u8], out: usize, wide: usize, narrow: usize, answers: usize) -> Result<Vec<u8>, u64> {
    if answers < 1 {
        return Err(6);
    }
    let n = paper::walk(arena, 0, None, None, &mut |_, _| true).map_err(|_| 8u64)?.0.len();
    if n == 0 || n > 65_536 {
        return Err(5);
    }
    if wide < 2 * n || narrow < 8 * n + 8 {
        return Err(9);
    }
    if out < 32 + 4 * n.div_ceil(3) + 12 * n + arena.len() {
        return Err(6);
    }
    rust_finish_arena(arena).map_err(|n| n as u64)
}
/// The Rust's validation; the paper's where the data is longer than a slice that can be lent here.
pub fn validate(body: &[u8], data: u64) -> u64 {
    if data <= 1 << 30 { rp::validate_number(body, data as usize) as u64 } else { paper::validate(body, data) as u64 }
}
/// The Rust on one body beside its data: validated once, asked often.
pub struct Reader<'a> {
    body: &'a [u8],
    data: Arc<[u8]>,
    /// The number of the Rust's validation; 0 for accepted.
    pub number: u64,
    /// None where its decode refuses the header or the dimensions.
    index: Option<rp::Prepared>,
}
/// Kind, sequence, offset and length, and the value; or 1 for nothing, or 14.
pub type Got = Result<([u64; 4], Vec<u8>), u64>;

impl<'a> Reader<'a> {
    pub fn new(body: &'a [u8], data: Arc<[u8]>) -> Self {
        let number = rp::validate_number(body, data.len()) as u64;
        let index = (number != 20 && number != 21).then(|| rp::Prepared::new(body, data.clone()));
        Reader { body, data, number, index }
    }
    /// The Rust's answer; 14 where its decode refuses the header or the dimensions, or its get panics. Its answer has no
    /// offset: the paper's stands there if the value lies at it, else 2^64 - 1, which no answer can hold.
    pub fn get(&self, key: &[u8], limit: Option<u64>) -> Got {
        let paper = paper::get(self.body, self.data.len() as u64, key, limit);
        if self.reads_on(&paper) {
            return Err(14);
        }
        match self.index.as_ref().map_or(rp::Got::Refused, |index| index.get(key, limit)) {
            rp::Got::Nothing => Err(1),
            rp::Got::Refused | rp::Got::Panicked => Err(14),
            rp::Got::Found(kind, sequence, value) => {
                let offset = match paper {
                    paper::Answer::Found { offset, .. } if self.lies_at(offset, &value) => offset,
                    _ => u64::MAX,
                };
                Ok(([kind.to_u8() as u64, sequence, offset, value.len() as u64], value))
            }
        }
    }
    /// Whether the Rust may read on with a direct pilot at or past n, so that the paper's 14 stands alone.
    fn reads_on(&self, paper: &paper::Answer) -> bool {
        self.number == 22 && *paper == paper::Answer::Damage
    }
    fn lies_at(&self, offset: u64, value: &[u8]) -> bool {
        self.data.get(offset as usize..).is_some_and(|rest| rest.starts_with(value))
    }
    /// The listing, rendered from the validation, and the get of each key with no limit and with the limit.
    pub fn listing(&self, limit: u64) -> String {
        if self.number != 0 {
            return format!("refused {}\n", self.number);
        }
        let arena = &self.body[word(self.body, 24) as usize..];
        let heads = paper::walk(arena, 0, None, None, &mut |_, _| true).map_or(Vec::new(), |w| w.0);
        let lines: Vec<String> =
            heads.iter().filter_map(|&head| self.listed(paper::key_at(arena, head), limit)).collect();
        format!("limit {limit} keys {} shown {}\n{}", heads.len(), lines.len(), lines.concat())
    }
    fn listed(&self, key: &[u8], limit: u64) -> Option<String> {
        let ([newest, ..], _) = self.get(key, None).ok()?;
        let ([kind, sequence, offset, length], _) = self.get(key, Some(limit)).ok()?;
        let kind = if kind == 1 { "put" } else { "tomb" };
        (newest == 1).then(|| format!("{} {sequence} {kind} {offset} {length}\n", hex(key)))
    }
}
/// Kind, sequence, offset and length, or 1 for nothing, or 14, on the data that the tests use.
pub fn get(body: &[u8], length: u64, key: &[u8], limit: Option<u64>, answers: usize) -> Result<[u64; 4], u64> {
    if answers < 4 {
        return Err(6);
    }
    Reader::new(body, data(length as usize)).get(key, limit).map(|found| found.0)
}
/// The Rust's filter; the hashes are sorted unless it is refused.
pub fn filter_build(
    hashes: &mut [u64],
    out: usize,
    wide: usize,
    narrow: usize,
    answers: usize,
) -> Result<Vec<u8>, u64> {
    if answers < 1 {
        return Err(6);
    }
    let n = hashes.len();
    if n > 65_536 {
        return Err(12);
    }
    let cells = if n == 0 { 0 } else { paper::sizing(n as u64).2 as usize };
    if wide < cells + n || narrow < 2 * cells + n {
        return Err(9);
    }
    if out < 48 + cells {
        return Err(6);
    }
    Ok(rf::Filter::build(hashes).encode())
}
/// 0 Positive or 1 Fuse, keys, seed, segment, count, cells; zeros after 0. None where the bytes are not accepted.
pub fn filter_fields(bytes: &[u8]) -> Option<[u64; 6]> {
    rf::Filter::decode(bytes).map(|filter| match filter.dims() {
        None => [0; 6],
        Some((segment, count, cells, seed, keys)) => [1, keys, seed, segment as u64, count as u64, cells as u64],
    })
}
/// 0 absent or 1 maybe for each hash. None where the bytes are not accepted.
pub fn filter_asks(bytes: &[u8], hashes: &[u64]) -> Option<Vec<u64>> {
    let filter = rf::Filter::decode(bytes)?;
    Some(hashes.iter().map(|&h| filter.maybe(h) as u64).collect())
}
/// The listing, rendered from the Rust's answers; the paper's where the data is longer than a slice that can be lent here.
pub fn listing(input: &[u8], out: usize, answers: usize) -> Result<String, u64> {
    let text = if (16..=65_536).contains(&input.len()) && word(input, 8) <= 1 << 24 {
        Reader::new(&input[16..], data(word(input, 8) as usize)).listing(word(input, 0))
    } else {
        paper::listing(input)
    };
    if answers < 1 || out < text.len() { Err(6) } else { Ok(text) }
}
fn word(bytes: &[u8], at: usize) -> u64 {
    u64::from_le_bytes(bytes[at..at + 8].try_into().expect("eight bytes"))
}
