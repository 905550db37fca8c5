//! The calls that are compared: one file each, one line of `ALL` each.
mod add;
mod drawn;
mod filter_ask;
mod filter_ask_all;
mod filter_build;
mod filter_read;
mod filters;
mod finish;
mod get;
mod hash;
mod history;
mod listing;
mod mix;
mod set_offset;
mod sort;
mod validate;

use crate::progress::Progress;
use crate::table::Line;
use oracle::Rng;
use std::fmt::Debug;
use std::sync::atomic::{AtomicU64, Ordering::Relaxed};

/// One call: cases from a seeded generator, run on both sides.
pub trait Call {
    /// What goes in, lent bytes and lengths included.
    type Case: Debug + Sync;
    /// What comes out: the answer and every lent byte afterwards.
    type Answer: Debug + PartialEq;
    const NAME: &'static str;
    /// One in so many of CASES: more than 1 for a call that takes long.
    const ONE_IN: u64 = 1;
    /// The numbers that every run has to meet: the fixed cases see to that.
    const MET: &'static [u64] = &[];
    /// The numbers that are no refusal: more than 0 where 1 says nothing or maybe.
    const PLAIN: &'static [u64] = &[0];
    /// The cases that are always run, before those drawn.
    fn fixed() -> Vec<Self::Case>;
    fn draw(r: &mut Rng) -> Self::Case;
    fn ours(case: &Self::Case) -> Self::Answer;
    fn theirs(case: &Self::Case) -> Self::Answer;
    /// The numbers that an answer holds, to tell how often each was met.
    fn numbers(_: &Self::Answer) -> Vec<u64> {
        Vec::new()
    }
}

/// What a run draws: its seed, how many cases, and on how many threads.
#[derive(Clone, Copy)]
pub struct Plan {
    pub seed: u64,
    pub cases: u64,
    pub jobs: u64,
}

pub struct Entry {
    pub name: &'static str,
    pub run: fn(Plan) -> Line,
}
const fn entry<C: Call>() -> Entry {
    Entry { name: C::NAME, run: run::<C> }
}

/// Every call, in the order of the boundary's table.
pub const ALL: &[Entry] = &[
    entry::<mix::Mix>(),
    entry::<hash::Hash>(),
    entry::<sort::Sort>(),
    entry::<add::Add>(),
    entry::<set_offset::SetOffset>(),
    entry::<history::History>(),
    entry::<finish::Finish>(),
    entry::<validate::Validate>(),
    entry::<get::Get>(),
    entry::<filter_build::FilterBuild>(),
    entry::<filter_read::FilterRead>(),
    entry::<filter_ask::FilterAsk>(),
    entry::<filter_ask_all::FilterAskAll>(),
    entry::<listing::Listing>(),
];

/// How many cases are drawn from one generator. A block is the same whichever thread runs it.
const BLOCK: u64 = 64;

/// A block's own generator, so that a new call moves no other's cases.
fn generator(seed: u64, name: &str, block: u64) -> Rng {
    let start = oracle::paper::mix(seed ^ oracle::paper::mix(block));
    Rng(name.bytes().fold(start, |a, b| oracle::paper::mix(a ^ b as u64)))
}

/// Runs a case on both sides and counts it.
fn compare<C: Call>(line: &mut Line, case: &C::Case) {
    let (ours, theirs) = (C::ours(case), C::theirs(case));
    C::numbers(&theirs).into_iter().for_each(|n| *line.numbers.entry(n).or_insert(0) += 1);
    line.count(ours == theirs, || format!("{case:?}: ours {ours:?}, the Rust {theirs:?}"));
}

/// One thread: takes the next fixed case or the next block until none is left.
fn work<C: Call>(plan: Plan, fixed: &[C::Case], next: &AtomicU64, progress: &Progress) -> Line {
    let mut line = Line::new(C::NAME);
    let drawn = plan.cases.div_ceil(C::ONE_IN);
    loop {
        let unit = next.fetch_add(1, Relaxed);
        if let Some(case) = fixed.get(unit as usize) {
            compare::<C>(&mut line, case);
            progress.step();
            continue;
        }
        let block = unit - fixed.len() as u64;
        if block * BLOCK >= drawn {
            return line;
        }
        let mut r = generator(plan.seed, C::NAME, block);
        drawn::forget();
        for _ in block * BLOCK..drawn.min((block + 1) * BLOCK) {
            compare::<C>(&mut line, &C::draw(&mut r));
            progress.step();
        }
    }
}

/// Every thread's work, added up.
fn all_work<C: Call>(plan: Plan, line: &mut Line) {
    let fixed = C::fixed();
    let progress = Progress::new(C::NAME, fixed.len() as u64 + plan.cases.div_ceil(C::ONE_IN));
    let next = AtomicU64::new(0);
    let one = || work::<C>(plan, &fixed, &next, &progress);
    std::thread::scope(|scope| {
        let others: Vec<_> = (1..plan.jobs).map(|_| scope.spawn(one)).collect();
        line.merge(one());
        others.into_iter().for_each(|other| line.merge(other.join().expect("a thread that ends")));
    });
}

fn run<C: Call>(plan: Plan) -> Line {
    Line::timed(C::NAME, |line| {
        all_work::<C>(plan, line);
        if !line.numbers.is_empty() {
            let met: Vec<String> = line.numbers.iter().map(|(n, cases)| format!("{n}: {cases}")).collect();
            line.notes.push(format!("answers {}", met.join(", ")));
        }
        for n in C::MET.iter().filter(|&n| !line.numbers.contains_key(n)) {
            line.differ += 1;
            line.notes.push(format!("{n} was never met"));
        }
        let plain: u64 = C::PLAIN.iter().filter_map(|n| line.numbers.remove(n)).sum();
        if plain > 0 {
            line.numbers.insert(0, plain);
        }
    })
}
