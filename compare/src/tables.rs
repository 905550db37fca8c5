//! The sizing tables, made by running the Rust at each n, against the constants in the code.
use crate::progress::Progress;
use crate::stored::repository;
use crate::table::Line;

const CODE: &str = "crates/sizing/src/table.rt";

/// The numbers of a constant array in the code; none if it isn't there.
fn constant(name: &str) -> Vec<u64> {
    let text = std::fs::read_to_string(repository().join(CODE)).unwrap_or_default();
    let array = text.split_once(&format!("pub const {name}: ")).and_then(|(_, after)| after.split_once("= ["));
    let numbers = array.and_then(|(_, after)| after.split_once(']')).map_or("", |(numbers, _)| numbers);
    numbers.split(',').map(str::trim).filter(|n| !n.is_empty()).map(oracle::num).collect()
}

/// A line with one case a row.
fn line<T: PartialEq + std::fmt::Debug>(
    name: &str,
    have: impl FnOnce() -> Vec<T>,
    make: impl FnOnce() -> Vec<T>,
) -> Line {
    Line::timed(name, |line| {
        let _waiting = Progress::waiting(name);
        let (have, made) = (have(), make());
        for i in 0..made.len().max(have.len()) {
            line.count(made.get(i) == have.get(i), || {
                format!("{CODE}, row {i}: {:?}, the Rust {:?}", have.get(i), made.get(i))
            });
        }
    })
}

/// The rows in the code: first key count, segments, and the segment there.
fn rows() -> Vec<[u64; 3]> {
    let (leasts, firsts, segments) = (constant("LEASTS"), constant("FIRSTS"), constant("SEGMENTS"));
    let segment = |n: u64| 1u64 << leasts.iter().filter(|&&l| l <= n).count() >> 1;
    firsts.iter().zip(&segments).map(|(&n, &s)| [n, s, segment(n)]).collect()
}

/// Both tables.
pub fn check() -> Vec<Line> {
    vec![
        line("sizing segments", || constant("LEASTS"), oracle::tables::leasts),
        line("sizing rows", rows, || oracle::tables::rows(65_536).into_iter().map(|(n, s, g)| [n, g, s]).collect()),
    ]
}
