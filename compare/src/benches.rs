//! The timings: one file a call, one line of `ALL` for each row. Medians of rounds in which ours and the Rust's runs take turns.
mod filter;
mod finish;
mod get;
mod hash;
mod mix;
mod sort;
mod validate;

use crate::say::say;
use crate::stored::repository;
use crate::{End, Ended, named};
use oracle::Rng;
use oracle::lines::{Rec, rust_builder};
use std::hint::black_box;
use std::io::Write;

/// One call, timed at several sizes.
pub trait Bench {
    /// What a run works on, with what the last run left. Both sides read the same bytes where the Rust lets us.
    type Input;
    const NAME: &'static str;
    const SIZES: &'static [usize] = &[1_000, 10_000, 65_536];
    /// What a size counts.
    const OF: &'static str = "keys";
    /// What either side clears, allocates or copies inside the timed part.
    const BUFFERS: &'static str = "none";
    /// Whether a run leaves the input fit for the next one; if not, each is prepared and timed alone.
    const REPEATS: bool = true;
    /// Whether a run works on all keys, and not on one.
    const WHOLE: bool = false;
    /// Whether `bench plot` measures it.
    const PLOTTED: bool = false;
    fn input(size: usize) -> Self::Input;
    /// Before each timed row of runs, on either side; not timed. `round` counts the rounds: a new round may bring new input, the same for
    /// both sides, so that the processor can't learn by heart which way each test goes.
    fn prepare(_: &mut Self::Input, _round: usize) {}
    fn ours(input: &mut Self::Input);
    fn theirs(input: &mut Self::Input);
}

/// The buffers of a call that is lent them, and of the package's, which has its own.
const LENT: &str = "ours clears its workspace; the Rust allocates workspace and output";
const ALLOCATED: &str = "both allocate workspace and output; ours clears its workspace too";

pub struct Entry {
    name: &'static str,
    sizes: &'static [usize],
    plotted: bool,
    measure: fn(usize) -> Row,
}
const fn entry<B: Bench>() -> Entry {
    Entry { name: B::NAME, sizes: B::SIZES, plotted: B::PLOTTED, measure: measure::<B> }
}

pub const ALL: &[Entry] = &[
    entry::<mix::Mix>(),
    entry::<hash::Hash>(),
    entry::<sort::Random>(),
    entry::<sort::Rising>(),
    entry::<sort::Falling>(),
    entry::<sort::Equal>(),
    entry::<sort::Worst>(),
    entry::<sort::Alternating>(),
    entry::<finish::Finish<16>>(),
    entry::<finish::Finish<13>>(),
    entry::<finish::Package>(),
    entry::<validate::Validate<16>>(),
    entry::<validate::Validate<13>>(),
    entry::<get::Hit<16>>(),
    entry::<get::Hit<13>>(),
    entry::<get::Empty>(),
    entry::<get::Miss<16>>(),
    entry::<get::Miss<13>>(),
    entry::<filter::Build>(),
    entry::<filter::Package>(),
    entry::<filter::AskOne>(),
    entry::<filter::AskBytes>(),
    entry::<filter::AskAll>(),
];

/// The key counts of the plot.
const PLOT: &[usize] = &[1_000, 2_000, 4_000, 8_000, 16_000, 32_000, 65_536];

/// A call's name where its keys have so many bytes: 16, or 13, which are a whole word and a rest.
const fn of_keys(bytes: usize, of_16: &'static str, of_13: &'static str) -> &'static str {
    match bytes {
        16 => of_16,
        13 => of_13,
        _ => panic!("no name for keys of that length"),
    }
}

/// Records of so many keys of so many bytes, one version each with a value of so many bytes.
fn records(keys: usize, bytes: usize, length: u64, seed: usize) -> Vec<Rec> {
    let mut r = Rng((keys + seed) as u64);
    let mut drawn: Vec<Vec<u8>> = (0..keys).map(|_| r.bytes(bytes)).collect();
    drawn.sort();
    let record = |(i, key)| Rec { new: true, kind: 1, key, seq: i as u64, len: length, offset: length * i as u64 };
    drawn.into_iter().enumerate().map(record).collect()
}
/// Their body, made by the Rust, and the keys.
fn body(keys: usize, bytes: usize, length: u64) -> (Vec<u8>, Vec<Vec<u8>>) {
    let recs = records(keys, bytes, length, 0);
    (rust_builder(&recs).unwrap().finish().unwrap(), recs.into_iter().map(|x| x.key).collect())
}

/// How long one timed row of runs should take, in ns: short, so that few rows are interrupted.
const ROW: f64 = 1e5;
/// How long the rows of one side may take together, in ns, and how many there are at least and at most.
const ALL_ROWS: f64 = 2e8;
const LEAST: usize = 15;
const MOST: usize = 501;

/// The processor time that this thread has had, in ns: what other programs take doesn't count, the kernel's work for this one does.
fn clock() -> i64 {
    unsafe extern "C" {
        fn clock_gettime(clock: i32, time: *mut [i64; 2]) -> i32;
    }
    const CLOCK_THREAD_CPUTIME_ID: i32 = 3;
    let mut time = [0; 2];
    // SAFETY: on x86-64 Linux a timespec is two words, seconds and nanoseconds.
    assert!(unsafe { clock_gettime(CLOCK_THREAD_CPUTIME_ID, &mut time) } == 0);
    time[0] * 1_000_000_000 + time[1]
}

/// The time of `count` runs, in ns for each.
fn time<B: Bench>(input: &mut B::Input, round: usize, count: u64, run: fn(&mut B::Input)) -> f64 {
    B::prepare(input, round);
    let start = clock();
    for _ in 0..count {
        run(black_box(input));
    }
    (clock() - start) as f64 / count as f64
}

/// How many runs fill a timed row, by the least of a few times (another program may have taken the rest).
fn count<B: Bench>(input: &mut B::Input) -> u64 {
    let mut count = 1;
    loop {
        let least = (0..5).map(|_| time::<B>(input, 0, count, B::theirs)).fold(f64::INFINITY, f64::min);
        if least * count as f64 >= ROW {
            return count;
        }
        count *= 2;
    }
}

/// The value at a fraction of the times in rising order.
fn at(times: &mut [f64], fraction: f64) -> f64 {
    times.sort_by(f64::total_cmp);
    times[((times.len() - 1) as f64 * fraction).round() as usize]
}

/// One row of the table: medians in ns, the middle half of the rounds' ratios, how many rounds of how many runs.
pub struct Row {
    call: &'static str,
    size: usize,
    of: &'static str,
    ours: f64,
    theirs: f64,
    middle: (f64, f64),
    rounds: usize,
    runs: u64,
    keys: usize,
    buffers: &'static str,
}

/// Ours, the Rust's, ours, the Rust's ..; the side that begins changes from round to round.
fn measure<B: Bench>(size: usize) -> Row {
    let mut input = B::input(size);
    let runs = if B::REPEATS { count::<B>(&mut input) } else { 1 };
    let row = time::<B>(&mut input, 0, runs, B::theirs) * runs as f64;
    let rounds = ((ALL_ROWS / row) as usize).clamp(LEAST, MOST);
    let (mut ours, mut theirs, mut ratios) = (Vec::new(), Vec::new(), Vec::new());
    time::<B>(&mut input, 0, runs, B::ours);
    for round in 0..rounds {
        if round % 2 == 1 {
            theirs.push(time::<B>(&mut input, round, runs, B::theirs));
        }
        ours.push(time::<B>(&mut input, round, runs, B::ours));
        if round % 2 == 0 {
            theirs.push(time::<B>(&mut input, round, runs, B::theirs));
        }
        ratios.push(ours[round] / theirs[round]);
    }
    Row {
        call: B::NAME,
        size,
        of: B::OF,
        ours: at(&mut ours, 0.5),
        theirs: at(&mut theirs, 0.5),
        middle: (at(&mut ratios, 0.25), at(&mut ratios, 0.75)),
        rounds,
        runs,
        keys: if B::WHOLE { size } else { 1 },
        buffers: B::BUFFERS,
    }
}

const HEAD: &str =
    "call\tn\tof\tours ns\tRust ns\tratio\tmiddle half\trounds\truns a round\tkeys a run\tin the timed part\n";

impl Row {
    /// One line, with tabs between the fields that HEAD names.
    fn line(&self) -> String {
        let Row { call, size, of, ours, theirs, middle: (low, high), rounds, runs, keys, buffers } = self;
        let times = format!("{ours:.1}\t{theirs:.1}\t{:.2}\t{low:.2} to {high:.2}", ours / theirs);
        format!("{call}\t{size}\t{of}\t{times}\t{rounds}\t{runs}\t{keys}\t{buffers}\n")
    }
    fn print(&self) {
        let Row { call, size, of, ours, theirs, middle: (low, high), rounds, runs, buffers, .. } = self;
        let (ratio, size, runs) = (ours / theirs, format!("{size} {of}"), format!("{rounds}x{runs}"));
        say!(
            "{call:<24} {size:>13} {ours:>13.1} {theirs:>13.1} {ratio:>6.2} {low:>5.2} to {high:<5.2} {runs:>9}  {buffers}"
        );
    }
}

/// Prints the table and writes it to a file. `plot` measures what the plot shows, at its key counts; a call's name, that call.
pub fn run_all(only: &str) -> Ended {
    let plot = only == "plot";
    if !plot {
        named(only, ALL.iter().map(|entry| entry.name))?;
    }
    let file = if plot { "target/plot.tsv" } else { "target/bench.tsv" };
    let failed = |e: std::io::Error| format!("{file}: {e}");
    let mut written = std::fs::File::create(repository().join(file)).map_err(failed)?;
    oracle::TRAILER.store(false, std::sync::atomic::Ordering::Relaxed);
    say!(
        "{:<24} {:>13} {:>13} {:>13} {:>6} {:>14} {:>9}  in the timed part",
        "call",
        "n",
        "ours ns",
        "Rust ns",
        "ratio",
        "middle half",
        "runs"
    );
    let mut text = HEAD.to_string();
    let named = |e: &&Entry| if plot { e.plotted } else { e.name.contains(only) };
    for entry in ALL.iter().filter(named) {
        for &size in if plot { PLOT } else { entry.sizes } {
            let row = (entry.measure)(size);
            row.print();
            text += &row.line();
        }
    }
    say!("medians of rounds in turn; runs: rounds x runs a round, on each side; written to {file}");
    written.write_all(text.as_bytes()).map_err(failed)?;
    Ok(End::Same)
}
