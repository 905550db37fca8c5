//! `read INDEX DATA KEY [LIMIT]`: says what an index file of the store has for a key, and lists the index at the limit;
//! without one the limit is 2^64 - 1. Where something fails it says so on standard error, and ends with exit code 1.
//!
//! The first line is `KEY: LENGTH bytes: VALUE`, `KEY: withdrawn` or `KEY: no record within the limit`. A value that is
//! no longer the key's has a second line, `KEY: withdrawn since` or `KEY: corrected since`. The listing follows, unless
//! the index is too long to be listed: standard error says so.
use std::error::Error;
use std::ffi::{OsStr, OsString};
use std::io::Write;
use std::os::unix::ffi::OsStrExt;
use std::path::Path;
use std::process::ExitCode;
use wobarelind::{Answer, LegacyIndex, Refusal, body_of, listing};

const USAGE: &str = "usage: read INDEX DATA KEY [LIMIT]";

/// An error with what it is about in front of it.
fn about(what: impl AsRef<Path>, error: impl Error) -> String {
    format!("{}: {error}", what.as_ref().display())
}

/// A decimal number up to 2^64 - 1.
fn number(text: &OsStr) -> Result<u64, String> {
    let digits = text.to_str().filter(|text| text.bytes().all(|byte| byte.is_ascii_digit()));
    let wrong = || format!("{}: LIMIT is not a decimal number up to {}", text.display(), u64::MAX);
    digits.and_then(|digits| digits.parse().ok()).ok_or_else(wrong)
}

/// The line that answers the key.
fn line(key: &[u8], answer: Answer<'_>) -> Vec<u8> {
    match answer {
        Answer::Put { value, .. } => [key, format!(": {} bytes: ", value.len()).as_bytes(), value, b"\n"].concat(),
        Answer::Withdrawn { .. } => [key, b": withdrawn\n"].concat(),
        Answer::Nothing => [key, b": no record within the limit\n"].concat(),
    }
}

/// What is said of a value within a limit that is no longer the key's: it was withdrawn or corrected past the limit.
fn since(within: Answer<'_>, newest: Answer<'_>) -> Option<&'static [u8]> {
    match (within, newest) {
        (Answer::Put { .. }, Answer::Withdrawn { .. }) => Some(b": withdrawn since\n"),
        (Answer::Put { value, .. }, Answer::Put { value: now, .. }) if !std::ptr::eq(value, now) => {
            Some(b": corrected since\n")
        }
        _ => None,
    }
}

/// Prints bytes, all of them.
fn print(bytes: &[u8]) -> Result<(), String> {
    let mut out = std::io::stdout();
    out.write_all(bytes).and_then(|()| out.flush()).map_err(|e| about("standard output", e))
}

/// Prints the listing. An index that is too long to be listed was looked up all the same.
fn list(index_path: &OsStr, body: &[u8], data_length: u64, limit: u64) -> Result<(), String> {
    match listing(limit, data_length, body) {
        Ok(text) => print(text.as_bytes()),
        Err(Refusal::INPUT) => {
            eprintln!("read: {}: too long to be listed; what stands above holds", index_path.display());
            Ok(())
        }
        Err(refusal) => Err(about(index_path, refusal)),
    }
}

/// Reads, looks up and lists; or says what failed.
fn run(arguments: &[OsString]) -> Result<(), String> {
    let (index_path, data_path, key, limit) = match arguments {
        [index, data, key] => (index, data, key, u64::MAX),
        [index, data, key, limit] => (index, data, key, number(limit)?),
        _ => return Err(USAGE.into()),
    };
    let file = std::fs::read(index_path).map_err(|e| about(index_path, e))?;
    let data = std::fs::read(data_path).map_err(|e| about(data_path, e))?;
    let body = body_of(&file).map_err(|e| about(index_path, e))?;
    let index = LegacyIndex::decode(body, &data).map_err(|e| about(index_path, e))?;

    let key = key.as_bytes();
    let (within, newest) = (index.get(key, Some(limit)), index.get(key, None));
    print(&line(key, within))?;
    if let Some(words) = since(within, newest) {
        print(&[key, words].concat())?;
    }
    list(index_path, body, data.len() as u64, limit)
}

fn main() -> ExitCode {
    let arguments: Vec<OsString> = std::env::args_os().skip(1).collect();
    match run(&arguments) {
        Ok(()) => ExitCode::SUCCESS,
        Err(why) => {
            eprintln!("read: {why}");
            ExitCode::FAILURE
        }
    }
}
