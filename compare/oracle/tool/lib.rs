//! The oracle: the given Rust (point.rs, filter.rs) with its private items handed out, document 01 read apart from it, and the test vectors.
mod bloom;
mod cache;
mod counter;
mod crc32;
mod limits;
mod range_cache;
mod sstable;
mod xxh3;

pub mod check;
pub mod command;
mod found;
pub mod hunt;
pub mod lines;
pub mod paper;
pub mod replay;
mod sizing_cut;
pub mod tables;
pub mod vectors;
pub use sstable::{Kind, filter_probe as rf, point::probe as rp};

/// Whether the check bytes of a trailer are computed. Timing turns it off: ours has no trailer.
pub static TRAILER: std::sync::atomic::AtomicBool = std::sync::atomic::AtomicBool::new(true);

pub fn hex(b: &[u8]) -> String {
    if b.is_empty() { "-".into() } else { b.iter().map(|x| format!("{x:02x}")).collect() }
}
pub fn unhex(s: &str) -> Vec<u8> {
    if s == "-" {
        return Vec::new();
    }
    assert!(s.len() % 2 == 0, "odd hex");
    (0..s.len() / 2).map(|i| u8::from_str_radix(&s[2 * i..2 * i + 2], 16).expect("hex")).collect()
}
/// A number, decimal or with 0x in hex.
pub fn number(s: &str) -> Option<u64> {
    match s.strip_prefix("0x") {
        Some(x) => u64::from_str_radix(x, 16).ok(),
        None => s.parse().ok(),
    }
}
pub fn num(s: &str) -> u64 {
    number(s).expect("number")
}
/// Why a file could not be read or written.
pub fn failed(path: &str) -> impl Fn(std::io::Error) -> String + '_ {
    move |e| format!("{path}: {e}")
}
/// Our generator for tests: splitmix64 of its own state (nothing of the index depends on it).
pub struct Rng(pub u64);
impl Rng {
    pub fn next(&mut self) -> u64 {
        self.0 = self.0.wrapping_add(0x9E3779B97F4A7C15);
        let mut z = self.0;
        z = (z ^ (z >> 30)).wrapping_mul(0xBF58476D1CE4E5B9);
        z = (z ^ (z >> 27)).wrapping_mul(0x94D049BB133111EB);
        z ^ (z >> 31)
    }
    pub fn below(&mut self, n: u64) -> u64 {
        self.next() % n
    }
    pub fn bytes(&mut self, n: usize) -> Vec<u8> {
        (0..n).map(|_| self.next() as u8).collect()
    }
}
/// Data bytes that tests use: byte i.
pub fn data_byte(i: u64) -> u8 {
    (i.wrapping_mul(167) ^ (i >> 8).wrapping_mul(59) ^ (i >> 16)) as u8
}
pub fn data(len: usize) -> std::sync::Arc<[u8]> {
    (0..len as u64).map(data_byte).collect()
}

thread_local! { static EXPECTED: std::cell::Cell<bool> = const { std::cell::Cell::new(false) }; }
/// What the Rust answers, or nothing where it panics (its get trusts validated bytes). Such a panic prints nothing.
pub fn caught<T>(run: impl FnOnce() -> T) -> Option<T> {
    static HOOK: std::sync::Once = std::sync::Once::new();
    HOOK.call_once(|| {
        let usual = std::panic::take_hook();
        std::panic::set_hook(Box::new(move |told| {
            if !EXPECTED.get() {
                usual(told)
            }
        }));
    });
    let before = EXPECTED.replace(true);
    let answer = std::panic::catch_unwind(std::panic::AssertUnwindSafe(run));
    EXPECTED.set(before);
    answer.ok()
}
