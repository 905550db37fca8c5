//! `beside filter FILTER [HASHES]`: a stored filter on both sides.
use super::files::{self, COMPACT, FILTER, HASHES_GO, INDEX};
use super::report::Report;
use super::verdict;
use crate::progress::Progress;
use crate::say::say;
use crate::{Ended, ours, theirs};
use oracle::Rng;

/// How many hashes are drawn where no file gives them.
const DRAWN: usize = 65_536;

/// Reads the filter and asks it. Hashes that are given may be its own, so the verdict says how many of them it calls absent.
pub fn run(filter: &str, hashes: Option<&str>) -> Ended {
    let bytes = files::read(filter)?;
    files::none_of(filter, &bytes, &[INDEX, COMPACT], "a filter")?;
    if !FILTER.resembles(&bytes) && !bytes.is_empty() && bytes.len().is_multiple_of(8) {
        let why = "it does not begin with KIBANFL2, as a filter does, and holds a whole number of u64";
        return Err(format!("{filter}: {why}; {HASHES_GO}"));
    }
    let given = hashes.is_some();
    let (hashes, from) = match hashes {
        Some(path) => (files::hashes(path)?, path),
        None => (drawn(DRAWN, &[]), "drawn"),
    };
    say!("{filter}: {} bytes; {} hashes, {from}", bytes.len(), hashes.len());
    let mut report = Report::default();
    let form = read(&mut report, &bytes);
    let maybe = ask(&mut report, &bytes, &hashes);
    report.part("ask", &format!("{maybe} of {} maybe", hashes.len()));
    let absent = if given { hashes.len() - maybe } else { 0 };
    Ok(report.end(verdict::filter(&bytes, form, absent, hashes.len())))
}

/// So many hashes that are not among these, which are sorted; always the same ones.
pub fn drawn(n: usize, members: &[u64]) -> Vec<u64> {
    let mut r = Rng(n as u64);
    std::iter::repeat_with(|| r.next()).filter(|h| members.binary_search(h).is_err()).take(n).collect()
}

/// The filter read on both sides: its fields, or 15. Its form: 0 for Positive, 1 for Fuse, none where it is refused.
pub fn read(report: &mut Report, bytes: &[u8]) -> Option<u64> {
    let mut answer = [0; 6];
    let ours = match ours::filter_read(bytes, &mut answer) {
        0 => Ok(answer),
        number => Err(number),
    };
    report.equal("filter read", ours, theirs::filter_fields(bytes).ok_or(15));
    let said = match ours {
        Err(number) => format!("refused with {number}"),
        Ok([0, ..]) => "accepted, Positive".into(),
        Ok([_, keys, _, segment, count, cells]) => {
            format!("accepted, Fuse of {keys} keys, segment {segment}, count {count}, cells {cells}")
        }
    };
    report.part("read", &said);
    ours.ok().map(|[form, ..]| form)
}

/// Each hash asked on both sides, by itself and all at once; how many are maybe.
pub fn ask(report: &mut Report, bytes: &[u8], hashes: &[u64]) -> usize {
    let theirs = theirs::filter_asks(bytes, hashes).unwrap_or(vec![15; hashes.len()]);
    let mut all = vec![15; hashes.len()];
    ours::filter_ask_all(bytes, hashes, &mut all);
    let progress = Progress::new("hashes asked", hashes.len() as u64);
    for (i, &hash) in hashes.iter().enumerate() {
        let (one, at_once) = (ours::filter_ask(bytes, hash), all[i] as u64);
        report.ask(one == theirs[i] && at_once == theirs[i], || {
            format!("ask {hash:#018x}: ours {one}, all at once {at_once}, the Rust {}", theirs[i])
        });
        progress.step();
    }
    theirs.iter().filter(|&&answer| answer == 1).count()
}
