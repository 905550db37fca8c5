//! Every key of a body, and keys beside them, looked up on both sides.
use super::keys::Key;
use super::report::Report;
use crate::ours;
use crate::progress::Progress;
use crate::theirs::{Got, Reader};
use std::sync::Arc;

/// A body beside its data, on both sides.
pub struct Sides<'a> {
    pub body: &'a [u8],
    pub data: &'a [u8],
    pub rust: Reader<'a>,
}

/// What is asked for: the keys of a body, and a limit for each beside those around its sequences.
pub struct Asked<'a> {
    pub keys: Vec<Key<'a>>,
    pub limit: u64,
}

/// Keys that are asked for whatever the body holds.
const STRAYS: [&[u8]; 2] = [b"", b"KIBANPH2"];

impl<'a> Sides<'a> {
    /// The Rust validates the body here.
    pub fn new(body: &'a [u8], data: &'a Arc<[u8]>) -> Self {
        Sides { body, data, rust: Reader::new(body, data.clone()) }
    }
    /// Ours, in the Rust's form: the value is the part of the data that the answer names.
    fn ours(&self, key: &[u8], limit: Option<u64>) -> Result<([u64; 4], Option<&[u8]>), u64> {
        let mut answer = [0; 4];
        match ours::get(self.body, self.data, key, limit, &mut answer) {
            0 => Ok((answer, self.data.get(answer[2] as usize..).and_then(|d| d.get(..answer[3] as usize)))),
            number => Err(number),
        }
    }
    /// Whether ours is this answer, value included; if not, both are told.
    fn ask(&self, report: &mut Report, what: &str, key: &[u8], limit: Option<u64>, theirs: &Got) {
        let ours = self.ours(key, limit);
        let same = match (&ours, theirs) {
            (Ok((record, value)), Ok((same, expected))) => record == same && *value == Some(&expected[..]),
            (Err(number), Err(expected)) => number == expected,
            _ => false,
        };
        report.ask(same, || {
            let ours = told(ours.map(|(record, value)| (record, value.unwrap_or_default().to_vec())));
            let limit = limit.map_or("none".into(), |l| l.to_string());
            format!("{what}, key {}, limit {limit}: ours {ours}, the Rust {}", oracle::hex(key), told(theirs.clone()))
        });
    }
}

/// An answer as it is shown: of a value the first 64 bytes.
fn told(got: Got) -> String {
    match got {
        Ok(([kind, sequence, offset, length], value)) => {
            let kind = if kind == 1 { "put" } else { "tombstone" };
            let start = oracle::hex(&value[..value.len().min(64)]);
            format!("{kind} {sequence} at {offset}, length {length}, value {start}")
        }
        Err(1) => "nothing".into(),
        Err(number) => number.to_string(),
    }
}

/// Each question: the keys with their limits, then those beside them and the strays without one.
fn questions(asked: &Asked, mut ask: impl FnMut(&[u8], Option<u64>)) {
    STRAYS.iter().for_each(|key| ask(key, None));
    let progress = Progress::new("keys looked up", asked.keys.len() as u64);
    for key in &asked.keys {
        key.limits(asked.limit).into_iter().for_each(|limit| ask(key.bytes, limit));
        key.neighbours().iter().for_each(|beside| ask(beside, None));
        progress.step();
    }
}

/// The body's answers on both sides; how many were a put, withdrawn, nothing and 14.
pub fn compare(report: &mut Report, sides: &Sides, asked: &Asked) -> [u64; 4] {
    let mut met = [0; 4];
    questions(asked, |key, limit| {
        let theirs = sides.rust.get(key, limit);
        met[match theirs {
            Ok(([1, ..], _)) => 0,
            Ok(_) => 1,
            Err(1) => 2,
            Err(_) => 3,
        }] += 1;
        sides.ask(report, "get", key, limit, &theirs);
    });
    met
}

/// A fresh body's answers: on both sides those that the Rust gives on the file's.
pub fn compare_fresh(report: &mut Report, file: &Sides, fresh: &Sides, asked: &Asked) {
    questions(asked, |key, limit| {
        let theirs = file.rust.get(key, limit);
        fresh.ask(report, "get on the fresh body", key, limit, &theirs);
        report.equal("the Rust's get, fresh body and file", fresh.rust.get(key, limit), theirs);
    });
}
