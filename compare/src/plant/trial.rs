//! The tool itself, run as its user runs it: on the samples, on damaged copies of them, on files that it can't take, and on wrong words.
use crate::numbers;
use crate::progress::Progress;
use crate::stored::repository;
use crate::table::Line;
use oracle::{paper, rp};
use std::path::{Path, PathBuf};
use std::process::{Command, Output, Stdio};
use wobarelind::Refusal;

/// The keys of the larger sample.
const KEYS: &str = "5000";
/// The files of a sample, in the order in which the functions below take them.
const FILES: [&str; 4] = ["wash.idx", "wash.dat", "wash.hashes", "wash.filter"];

/// Runs the tool to its end, with standard output into a pipe that is read.
fn tool(arguments: &[&str]) -> Option<Output> {
    tool_into(Stdio::piped(), arguments)
}

/// The same with standard output into this.
fn tool_into(out: impl Into<Stdio>, arguments: &[&str]) -> Option<Output> {
    Command::new(std::env::current_exe().ok()?).args(arguments).stdout(out).output().ok()
}

/// A file's path, which is text.
fn path(dir: &Path, name: &str) -> String {
    dir.join(name).to_string_lossy().into_owned()
}

/// The number of questions, if the line before the last is their sum and says that none differs.
fn questions(text: &str) -> Option<u64> {
    let sum: Vec<&str> = text.lines().rev().nth(1)?.split(' ').collect();
    match sum[..] {
        [questions, "question," | "questions,", "0", "differ"] => questions.parse().ok(),
        _ => None,
    }
}

/// Runs the tool on files: of its questions none may differ, and it has to end with one of these codes and a verdict that has these words.
fn alike(line: &mut Line, arguments: &[&str], codes: &[i32], words: &str) {
    let output = tool(arguments);
    let text = output.as_ref().map_or(String::new(), |o| String::from_utf8_lossy(&o.stdout).into_owned());
    let asked = questions(&text).unwrap_or(0);
    *line.numbers.entry(0).or_insert(0) += asked;
    let code = output.and_then(|o| o.status.code());
    let told = text.lines().last().is_some_and(|verdict| verdict.contains(words));
    let fine = asked > 0 && told && code.is_some_and(|code| codes.contains(&code));
    line.count(fine, || format!("beside {}: {codes:?} and {words:?} wanted, {code:?}: {text}", arguments.join(" ")));
}

/// The tool has to end with 2, to say these words, and to print nothing else.
fn stopped(line: &mut Line, arguments: &[&str], words: &str) {
    ended(line, tool(arguments), arguments, words);
}

/// A run that has to have ended so.
fn ended(line: &mut Line, output: Option<Output>, arguments: &[&str], words: &str) {
    let text = output.as_ref().map_or(String::new(), |o| String::from_utf8_lossy(&o.stderr).into_owned());
    let told = text.starts_with("beside: ") && text.contains(words);
    let fine = told && output.is_some_and(|o| o.status.code() == Some(2) && o.stdout.is_empty());
    line.count(fine, || format!("beside {}: 2 and {words:?} wanted: {text}", arguments.join(" ")));
}

/// Places of an index file: so many in the header, the pilots, the slots and the arena, and the trailer.
fn places(file: &[u8], each: usize) -> Vec<usize> {
    let n = u32::from_le_bytes([file[16], file[17], file[18], file[19]]) as usize;
    let (slots, arena, trailer) = (32 + 4 * n.div_ceil(3), 32 + 4 * n.div_ceil(3) + 12 * n, file.len() - 5);
    let regions = [0..32, 32..slots, slots..arena, arena..trailer, trailer..file.len()];
    regions.into_iter().flat_map(|r| (0..each).map(move |i| r.start + i * r.len() / each)).collect()
}

/// Copies of a file with one byte changed at these places, or cut there.
fn damaged<'a>(file: &'a [u8], places: &'a [usize]) -> impl Iterator<Item = Vec<u8>> + 'a {
    let changed = move |at: usize, by: u8| {
        let mut copy = file.to_vec();
        copy[at] ^= by;
        copy
    };
    places.iter().flat_map(move |&at| [changed(at, 1), changed(at, 128), file[..at].to_vec()])
}

/// Damaged copies of a file of at least so many bytes, each written in place of the one before and run.
fn run_damaged(line: &mut Line, file: &str, least: usize, places: &[usize], run: impl Fn(&mut Line, &str)) {
    let whole = std::fs::read(file).unwrap_or_default();
    let copy = format!("{file}.damaged");
    for bytes in damaged(&whole, places) {
        if bytes.len() >= least && std::fs::write(&copy, bytes).is_ok() {
            run(line, &copy);
        }
    }
}

/// Standard output that takes nothing, a full one and a pipe without a reader, stops the tool with a line and no panic.
fn unheard(line: &mut Line, arguments: &[&str]) {
    let full = std::fs::File::create("/dev/full").ok();
    let closed = std::io::pipe().ok().map(|(_, writer)| writer);
    let runs = [full.and_then(|out| tool_into(out, arguments)), closed.and_then(|out| tool_into(out, arguments))];
    runs.into_iter().for_each(|output| ended(line, output, arguments, "beside: standard output took no more\n"));
}

/// A sample: its files whole, then its index and its filter damaged at so many places of each region. The store's trailer shows every
/// damage of an index; a filter's cells may be changed and still be a filter.
fn sample(line: &mut Line, dir: &Path, keys: &[&str], each: usize, listed: &str) {
    let made = tool(&[&["sample", &path(dir, "")], keys].concat());
    line.count(made.is_some_and(|o| o.status.success()), || "beside sample does not end with 0".into());
    let [index, data, hashes, filter] = FILES.map(|name| path(dir, name));
    alike(line, &["index", &index, &data], &[0], &format!("accept this index, and answer alike{listed}"));
    alike(line, &["index", &index, &hashes], &[3], "refuse this file with 29");
    alike(line, &["hashes", &hashes], &[0], "build the same filter");
    alike(line, &["filter", &filter], &[0], "accept this filter");
    alike(line, &["filter", &filter, &hashes], &[0], "accept this filter");
    let file = std::fs::read(&index).unwrap_or_default();
    let at = if file.len() > 37 { places(&file, each) } else { Vec::new() };
    run_damaged(line, &index, 5, &at, |line, copy| alike(line, &["index", copy, &data], &[3], "both sides"));
    let at: Vec<usize> = (0..49).step_by(49 / each.min(49)).collect();
    run_damaged(line, &filter, 0, &at, |line, copy| alike(line, &["filter", copy, &hashes], &[0, 3], "this filter"));
}

/// The files that the repository stores are what the old Rust writes now.
fn stored(line: &mut Line, dir: &Path) {
    for name in FILES {
        let (made, kept) =
            (std::fs::read(dir.join(name)).ok(), std::fs::read(repository().join("sample").join(name)).ok());
        line.count(made.is_some() && made == kept, || format!("sample/{name} is not what the old Rust writes"));
    }
}

/// The listing at a limit, and words that are none.
fn limits(line: &mut Line, dir: &Path) {
    let [index, data, ..] = FILES.map(|name| path(dir, name));
    for limit in ["none", "0", "20", "18446744073709551615", ""] {
        alike(line, &["index", &index, &data, limit], &[0], "accept this index");
    }
    for limit in ["x", "-1", "+1", "1.5", "18446744073709551616"] {
        stopped(line, &["index", &index, &data, limit], "LIMIT");
    }
}

/// An index file of one key and its data; the file is changed, if it could be made.
fn changed(dir: &Path, change: impl FnOnce(Vec<u8>) -> Vec<u8>) -> [String; 2] {
    _ = tool(&["sample", &path(dir, ""), "1"]);
    let [index, data, ..] = FILES.map(|name| path(dir, name));
    let file = std::fs::read(&index).unwrap_or_default();
    if file.len() > 37 {
        _ = std::fs::write(&index, change(file));
    }
    [index, data]
}

/// Files that no finish makes: another pilot, which is accepted; the compact form's first bytes; a slot that leads elsewhere, behind a right
/// trailer; no trailer, a wrong one, and a file cut by more.
fn others(line: &mut Line, dir: &Path) {
    let body = |file: Vec<u8>| file[..file.len() - 5].to_vec();
    let with = |at: usize, bytes: &'static [u8]| {
        move |file: Vec<u8>| {
            let mut body = body(file);
            body[at..at + bytes.len()].copy_from_slice(bytes);
            rp::with_trailer(&body)
        }
    };
    let mut run = |code: i32, words: &str, [index, data]: [String; 2]| {
        alike(line, &["index", &index, &data], &[code], words);
    };
    run(0, "accept this index, and answer alike", changed(dir, with(32, &[5, 0, 0, 0])));
    run(3, "compact form is not carried over", changed(dir, with(0, b"KIBANPH3")));
    let told =
        format!("both sides refuse this file with {} The index's trailer is right", numbers::told(Refusal::SLOT));
    run(3, &told, changed(dir, with(36, &[9])));
    run(3, "the trailer is missing", changed(dir, body));
    run(3, "refuse the file for its trailer", changed(dir, |file| [body(file), vec![0; 5]].concat()));
    run(3, "cut or changed since", changed(dir, |file| file[..file.len() - 6].to_vec()));
    run(3, "cut or changed since", changed(dir, |file| [b"X", &file[1..file.len() / 8 * 8]].concat()));
}

/// Hashes of which a filter is Positive, none and equal ones; and a filter that is asked for hashes that are not its own.
fn hashes(line: &mut Line, dir: &Path) {
    let [none, equal, others] = &["none.hashes", "equal.hashes", "other.hashes"].map(|name| path(dir, name));
    _ = std::fs::write(none, []);
    _ = std::fs::write(equal, [7; 16]);
    _ = std::fs::write(others, (0..80).collect::<Vec<u8>>());
    alike(line, &["hashes", none], &[0], "Positive filter, which calls nothing absent");
    alike(line, &["hashes", equal], &[0], "Positive filter, which calls nothing absent");
    alike(line, &["filter", &path(dir, FILES[3]), others], &[0], "given hashes that it calls absent: 10 of 10");
}

/// An accepted index of two keys that finish can't place: they have equal hashes under each of the eight seeds, and not under this one.
fn unplaced() -> Option<Vec<u8>> {
    let keys: [&[u8]; 2] = [b"L150A-20241103-a", b"L150U-20241103-A"];
    let mut builder = rp::Legacy::new();
    keys.iter().try_for_each(|key| builder.add(oracle::Kind::Put, key, b"", 1, true).map(|_| ())).ok()?;
    let slots = |(seed, pilot)| keys.map(|key| rp::position(rp::hash(key, seed), pilot, 2));
    let (seed, pilot) = (0..1_000u64).map(|i| (i / 10, (i % 10) as u32)).find(|&at| slots(at)[0] != slots(at)[1])?;
    let slot = |i: usize| {
        let print = paper::fingerprint(rp::hash(keys[i], seed)) as u32;
        [&(builder.heads()[i] as u64).to_le_bytes()[..], &print.to_le_bytes()].concat()
    };
    let [first, second] = if slots((seed, pilot)) == [0, 1] { [0, 1] } else { [1, 0] };
    let sizes = [&2u32.to_le_bytes()[..], &1u32.to_le_bytes(), &60u64.to_le_bytes(), &pilot.to_le_bytes()].concat();
    let head = [&b"KIBANPH2"[..], &seed.to_le_bytes(), &sizes].concat();
    Some(rp::with_trailer(&[head, slot(first), slot(second), builder.arena().to_vec()].concat()))
}

/// Files given in another's place.
fn misplaced(line: &mut Line, dir: &Path) {
    let [index, data, hashes, filter] = &FILES.map(|name| path(dir, name));
    stopped(line, &["index", data, index], "swapped");
    stopped(line, &["index", hashes, index], "swapped");
    stopped(line, &["index", index, index], "this is an index");
    stopped(line, &["index", index, filter], "this is a filter");
    stopped(line, &["index", filter, data], "beside filter");
    stopped(line, &["hashes", index], "make compare-files");
    stopped(line, &["hashes", filter], "beside filter");
    stopped(line, &["filter", index], "make compare-files");
    stopped(line, &["filter", hashes], "make compare-hashes");
    stopped(line, &["filter", hashes, filter], "make compare-hashes");
    stopped(line, &["filter", filter, index], "make compare-files");
    alike(line, &["index", hashes, data], &[3], "make compare-hashes");
    alike(line, &["index", data, data], &[3], "It does not begin with KIBANPH2.");
    alike(line, &["filter", data], &[3], "It does not begin with KIBANFL2.");
}

/// No file, a file under five bytes, hashes cut short, no such command, words too few or no numbers.
fn refusals(line: &mut Line, dir: &Path) {
    let [short, none, here] = &["short", "none", ""].map(|name| path(dir, name));
    let [index, data, hashes, _] = &FILES.map(|name| path(dir, name));
    _ = std::fs::write(short, [0; 4]);
    stopped(line, &["index", none, data], none);
    stopped(line, &["index", index, none], none);
    stopped(line, &["index", "", data], "not named");
    stopped(line, &["index", short, data], "4 bytes");
    stopped(line, &["index", here, data], here);
    stopped(line, &["hashes", short], "4 bytes");
    stopped(line, &["hashes", none], none);
    stopped(line, &["filter", none], none);
    stopped(line, &["index", short], "usage");
    stopped(line, &["sample", index], index);
    stopped(line, &["sample", here, "65537"], "65537");
    stopped(line, &["sample", here, "x"], "KEYS");
    for words in [&["what"][..], &[], &["stack", "x"], &["bench", "get", "x"], &["compare", "1", "1", "", "1", "x"]] {
        stopped(line, words, "usage");
    }
    stopped(line, &["compare", "x"], "SEED");
    stopped(line, &["compare", "1", "x"], "CASES");
    stopped(line, &["compare", "1", "1", "what"], "kiban_mix");
    stopped(line, &["compare", "1", "1", "", "x"], "JOBS");
    stopped(line, &["compare", "1", "1", "", "0"], "JOBS");
    stopped(line, &["bench", "what"], "finish");
    stopped(line, &["oracle"], "selfcheck");
    stopped(line, &["oracle", "what"], "selfcheck");
    stopped(line, &["oracle", "selfcheck", "1"], "SEED ROUNDS");
    stopped(line, &["oracle", "selfcheck", "1", "x"], "ROUNDS");
    stopped(line, &["oracle", "replay", none], none);
    stopped(line, &["oracle", "replay", here], here);
    stopped(line, &["oracle", "replay", data], "WASHVEC1");
    stopped(line, &["oracle", "filter-file", data, none], "no whole number of u64");
    stopped(line, &["oracle", "filter-file", hashes, here], here);
    stopped(line, &["oracle", "vectors", "1", here, "1"], here);
}

/// Every run of the tool.
pub fn check() -> Line {
    let dir: PathBuf = repository().join("target/plant files");
    Line::timed("plant files", |line| {
        let _waiting = Progress::waiting("plant files");
        let (small, one) = (&dir.join("small"), &dir.join("one"));
        sample(line, small, &[], 16, "");
        stored(line, small);
        sample(line, &dir.join("large"), &[KEYS], 1, "; it was too long to be listed");
        limits(line, small);
        others(line, one);
        let [index, data] = changed(one, |_| unplaced().unwrap_or_default());
        alike(line, &["index", &index, &data], &[0], "The file itself is good.");
        hashes(line, small);
        misplaced(line, small);
        refusals(line, small);
        unheard(line, &["--help"]);
        unheard(line, &["hashes", &path(small, FILES[2])]);
        let questions = line.numbers.remove(&0).unwrap_or(0);
        line.notes.push(format!("a case is a run of the tool; {questions} questions in all"));
    })
}
