//! The Rattle code beside the Rust: see README.md, or `USAGE` below.
mod benches;
mod calls;
mod numbers;
mod plant;
mod progress;
mod say;
mod stack;
mod stored;
mod table;
mod tables;
mod theirs;
mod trailers;
mod worst;

use calls::Plan;
use progress::Progress;
use say::say;
use std::process::ExitCode;
use table::Table;
use wobarelind::sys as ours;

const USAGE: &str = "usage:
    beside index INDEX DATA [LIMIT]                an index of the plant with its trailer, and the data; listed at LIMIT too
    beside hashes HASHES                           a filter of these hashes (u64, little-endian)
    beside filter FILTER [HASHES]                  a stored filter, asked for these hashes, or for drawn ones
    beside sample DIR [KEYS]                       writes such files: a small plant, or one of so many drawn keys
    beside compare [SEED [CASES [CALL [JOBS]]]]    drawn cases of every call, or of those with CALL in their name
    beside bench [CALL | plot]                     times, or those that docs/speed.svg shows
    beside stack                                   the stack that each call takes
    beside vectors                                 writes the stored vectors anew
    beside oracle COMMAND ..                       the old Rust alone
LIMIT is a sequence up to 18446744073709551615, or none.
Exit codes: 0 nothing differs; 1 something differs; 2 it can't run; 3 nothing differs, and the file is refused.";

/// The most threads that a comparison takes.
const MOST_JOBS: u64 = 256;

/// What the last line of a comparison says where the table of its numbers has a row that is wrong.
const NUMBERS_WRONG: &str =
    "; a number was not met, was met and can't be, or has no row in docs/NUMBERS.md: see the table";

/// What a command comes to. Its number is the exit code.
#[derive(Clone, Copy, Debug, PartialEq)]
enum End {
    Same = 0,
    Differs = 1,
    /// Nothing differs, and the file is refused.
    Refused = 3,
}

/// What a command comes to, or why it can't run, which is exit code 2.
type Ended = Result<End, String>;

/// A decimal number that is given, or the usual one where the word is empty.
fn number(name: &str, word: &str, otherwise: u64) -> Result<u64, String> {
    match word.parse() {
        _ if word.is_empty() => Ok(otherwise),
        Ok(number) if !word.starts_with('+') => Ok(number),
        _ => Err(format!("{name} is a decimal number up to {}, not {word:?}", u64::MAX)),
    }
}

/// The limit of a listing; 2^64 - 1 where there is none.
fn limit(word: &str) -> Result<u64, String> {
    let given = if word == "none" { "" } else { word };
    number("LIMIT", given, u64::MAX).map_err(|why| format!("{why}; or the word none"))
}

/// Whether some name has a call's name in it; if not, those that there are.
fn named(call: &str, names: impl Iterator<Item = &'static str>) -> Result<(), String> {
    let names: Vec<&str> = names.collect();
    if names.iter().any(|name| name.contains(call)) {
        return Ok(());
    }
    Err(format!("no call has {call:?} in its name; there are: {}", names.join("; ")))
}

/// What a comparison draws, from the words behind `compare`; all of them are checked here.
fn plan(words: &[&str]) -> Result<Plan, String> {
    let word = |at: usize| words.get(at).copied().unwrap_or("");
    let (seed, cases) = (number("SEED", word(0), 1)?, number("CASES", word(1), 100_000)?);
    let jobs = number("JOBS", word(3), 1)?;
    if !(1..=MOST_JOBS).contains(&jobs) {
        return Err(format!("JOBS is 1 to {MOST_JOBS}, not {jobs}"));
    }
    named(word(2), calls::ALL.iter().map(|call| call.name))?;
    Ok(Plan { seed, cases, jobs })
}

/// Every call, then what the repository stores of the Rust's answers, the trailers, and the tool on a plant's files.
fn compare(plan: Plan, only: &str) -> End {
    let mut table = Table::new(&["call", "cases", "differ", "seconds"]);
    for call in calls::ALL.iter().filter(|c| c.name.contains(only)) {
        table.add((call.run)(plan));
    }
    let mut fine = true;
    if only.is_empty() {
        stored::check().into_iter().chain(tables::check()).for_each(|line| table.add(line));
        table.add(trailers::check());
        table.add(plant::trial::check());
        fine = numbers::print(&table.numbers);
    }
    let wrong = if fine { "" } else { NUMBERS_WRONG };
    say!("seed {}, {} cases in all, {} differ{wrong}", plan.seed, table.cases, table.differ);
    if fine && table.differ == 0 { End::Same } else { End::Differs }
}

/// The old Rust alone. Two of its commands wait for standard input, and say nothing meanwhile.
fn oracle(words: &[&str]) -> Ended {
    let command = oracle::command::parse(words)?;
    let waits = ["lines", "listing"].contains(&words[0]);
    let _waiting = (!waits).then(|| Progress::waiting(&format!("oracle {}", words[0])));
    command()?;
    Ok(End::Same)
}

/// Runs the command that the words are.
fn command(words: &[&str]) -> Ended {
    match words {
        ["compare", rest @ ..] if rest.len() <= 4 => Ok(compare(plan(rest)?, rest.get(2).unwrap_or(&""))),
        ["bench"] => benches::run_all(""),
        ["bench", call] => benches::run_all(call),
        ["stack"] => Ok(stack::run_all()),
        ["vectors"] => stored::write(),
        ["index", index, data] => plant::index::run(index, data, u64::MAX),
        ["index", index, data, at] => plant::index::run(index, data, limit(at)?),
        ["hashes", hashes] => plant::hashes::run(hashes),
        ["filter", filter] => plant::filter::run(filter, None),
        ["filter", filter, hashes] => plant::filter::run(filter, Some(hashes)),
        ["sample", dir] => plant::sample::run(dir, 0),
        ["sample", dir, keys] => plant::sample::run(dir, number("KEYS", keys, 0)?),
        ["oracle", rest @ ..] => oracle(rest),
        [] => Err(format!("a command is wanted\n{USAGE}")),
        _ => Err(format!("no command is written so: {}\n{USAGE}", words.join(" "))),
    }
}

/// The words of the command line, and the exit code that they come to.
fn main() -> ExitCode {
    let args: Vec<String> = std::env::args_os().skip(1).map(|word| word.to_string_lossy().into_owned()).collect();
    let words: Vec<&str> = args.iter().map(String::as_str).collect();
    if let ["-h" | "--help"] = words[..] {
        say!("{USAGE}");
        return ExitCode::SUCCESS;
    }
    match command(&words) {
        Ok(end) => ExitCode::from(end as u8),
        Err(why) => say::stop(&why),
    }
}
