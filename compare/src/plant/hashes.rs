//! `beside hashes HASHES`: a filter of these hashes, built, read and asked on both sides.
use super::report::Report;
use super::{files, filter, verdict};
use crate::say::say;
use crate::{Ended, ours, theirs};
use oracle::paper;

/// Sorts the hashes, builds the filter, and asks it for them and for as many others.
pub fn run(path: &str) -> Ended {
    let given = files::hashes(path)?;
    say!("{path}: {} hashes", given.len());
    let mut report = Report::default();
    let sorted = sort(&mut report, &given);
    let bytes = build(&mut report, &given, &sorted);
    let form = filter::read(&mut report, &bytes);
    let present = filter::ask(&mut report, &bytes, &sorted);
    report.ask(present == sorted.len(), || format!("{} of its own hashes are absent", sorted.len() - present));
    report.part("ask, its own", &format!("{present} of {} maybe", sorted.len()));
    let others = filter::drawn(sorted.len(), &sorted);
    let maybe = filter::ask(&mut report, &bytes, &others);
    let rate = 100.0 * maybe as f64 / others.len().max(1) as f64;
    report.part("ask, others", &format!("{maybe} of {} maybe, falsely: {rate:.2} of 100", others.len()));
    Ok(report.end(verdict::built(form)))
}

/// The hashes sorted on both sides; the Rust's.
fn sort(report: &mut Report, given: &[u64]) -> Vec<u64> {
    let (mut ours, mut theirs) = (given.to_vec(), given.to_vec());
    ours::sort(&mut ours);
    theirs.sort_unstable();
    report.ask(ours == theirs, || "sort: another order than the Rust's".into());
    report.part("sort", "against sort_unstable");
    theirs
}

/// The filter's bytes and the hashes left sorted, on both sides; the Rust's bytes.
fn build(report: &mut Report, given: &[u64], sorted: &[u64]) -> Vec<u8> {
    let n = given.len();
    let cells = if n == 0 { 0 } else { paper::sizing(n as u64).2 as usize };
    let (mut wide, mut narrow) = (vec![0; cells + n], vec![0; 2 * cells + n]);
    let (mut out, mut size) = (vec![0; 48 + cells], [0]);
    let theirs = theirs::filter_build(&mut given.to_vec(), out.len(), wide.len(), narrow.len(), 1).unwrap_or_default();
    let mut left = given.to_vec();
    let number = ours::filter_build(&mut left, &mut wide, &mut narrow, &mut out, &mut size);
    let ours = &out[..size[0] as usize];
    report.ask(number == 0 && ours == theirs, || {
        let at = ours.iter().zip(&theirs).position(|(x, y)| x != y);
        format!("build: ours {number}, {} bytes, the Rust {}; first other byte {at:?}", ours.len(), theirs.len())
    });
    report.ask(left == sorted, || "build: the hashes are not left as the Rust leaves them".into());
    report.part("build", &format!("{} bytes", theirs.len()));
    theirs
}
