//! The table that is printed: one line a call.
use crate::say::say;
use std::collections::BTreeMap;
use std::time::Instant;

/// What was compared under one name.
pub struct Line {
    pub name: String,
    pub cases: u64,
    pub differ: u64,
    pub seconds: f64,
    /// What is to be said of it: the first cases that differ, or why there is none.
    pub notes: Vec<String>,
    /// How often each number was answered.
    pub numbers: BTreeMap<u64, u64>,
}

impl Line {
    /// A line of nothing yet.
    pub fn new(name: &str) -> Self {
        Line { name: name.into(), cases: 0, differ: 0, seconds: 0.0, notes: Vec::new(), numbers: BTreeMap::new() }
    }
    /// A line that a piece of work fills, timed.
    pub fn timed(name: &str, work: impl FnOnce(&mut Line)) -> Self {
        let start = Instant::now();
        let mut line = Line::new(name);
        work(&mut line);
        line.seconds = start.elapsed().as_secs_f64();
        line
    }
    /// Counts a case; of those that differ the first three are told.
    pub fn count(&mut self, same: bool, tell: impl FnOnce() -> String) {
        self.cases += 1;
        if !same {
            self.differ += 1;
            if self.differ <= 3 {
                self.notes.push(short(tell()));
            }
        }
    }
    /// Adds what another thread counted; three notes are kept.
    pub fn merge(&mut self, other: Line) {
        self.cases += other.cases;
        self.differ += other.differ;
        self.notes.extend(other.notes);
        self.notes.truncate(3);
        other.numbers.into_iter().for_each(|(n, times)| *self.numbers.entry(n).or_insert(0) += times);
    }
}

/// A text, cut where it is too long to be read.
fn short(text: String) -> String {
    match text.char_indices().nth(900) {
        Some((at, _)) => format!("{} .. ({} characters)", &text[..at], text.len()),
        None => text,
    }
}

/// Prints lines as they come, and adds up.
pub struct Table {
    pub cases: u64,
    pub differ: u64,
    pub numbers: BTreeMap<u64, u64>,
}

impl Table {
    /// Prints the head.
    pub fn new(head: &[&str; 4]) -> Self {
        say!("{:<24} {:>10} {:>8} {:>8}", head[0], head[1], head[2], head[3]);
        Table { cases: 0, differ: 0, numbers: BTreeMap::new() }
    }
    /// Prints a line with its notes, and adds it up.
    pub fn add(&mut self, line: Line) {
        say!("{:<24} {:>10} {:>8} {:>8.1}", line.name, line.cases, line.differ, line.seconds);
        line.notes.iter().for_each(|n| say!("    {n}"));
        self.cases += line.cases;
        self.differ += line.differ;
        line.numbers.into_iter().for_each(|(n, times)| *self.numbers.entry(n).or_insert(0) += times);
    }
}
