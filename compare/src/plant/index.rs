//! `beside index INDEX DATA [LIMIT]`: an index of the plant on both sides.
use super::files::{self, COMPACT, FILTER, INDEX};
use super::lookups::{self, Asked, Sides};
use super::report::{Report, counted};
use super::{keys, verdict};
use crate::progress::Progress;
use crate::say::say;
use crate::{Ended, ours, theirs};
use oracle::rp;
use std::sync::Arc;
use wobarelind::Refusal;

/// The five bytes behind a body: a zero and four check bytes.
const TRAILER: usize = 5;
/// The most bytes of a listing's input: limit, data length and body.
const MOST_LISTED: usize = 65_536;

/// Asks both sides all that the files can be asked; the verdict is by the Rust's validation.
pub fn run(index: &str, data: &str, limit: u64) -> Ended {
    let (file, data) = read(index, data)?;
    let body = &file[..file.len() - TRAILER];
    say!("{index}: {} bytes before the last five; data of {} bytes", body.len(), data.len());
    let mut report = Report::default();
    let trailer = trailer(&mut report, &file);
    let waiting = Progress::waiting("validate");
    let sides = Sides::new(body, &data);
    validate(&mut report, &sides);
    drop(waiting);
    let arena = keys::arena_of(body).unwrap_or_default();
    let asked = Asked { keys: keys::all(arena), limit };
    gets(&mut report, &sides, &asked);
    let fresh = if arena.is_empty() { None } else { finish(&mut report, &sides, arena, &asked, &data) };
    let listed = listings(&mut report, &sides, limit);
    Ok(report.end(match Refusal::from_number(sides.rust.number) {
        None => verdict::accepted(trailer, fresh, listed),
        Some(refusal) => verdict::refused(&file, refusal, trailer, ours::validate(&file, data.len() as u64) == 0),
    }))
}

/// Both files, unless they are others than these two, as far as their first bytes tell.
fn read(index: &str, data: &str) -> Result<(Vec<u8>, Arc<[u8]>), String> {
    let (file, values) = (files::read(index)?, files::read(data)?);
    if INDEX.has(&values) && !INDEX.has(&file) {
        let order = "the index is named first, then the data";
        return Err(format!("{index} and {data} are swapped: the second begins with {}; {order}", INDEX.magic));
    }
    files::none_of(index, &file, &[FILTER], "the index, which is named first")?;
    files::none_of(data, &values, &[INDEX, COMPACT, FILTER], "the data, which is named second")?;
    if file.len() < TRAILER {
        return Err(format!("{index}: {} bytes; the trailer of an index alone has {TRAILER}", file.len()));
    }
    Ok((file, values.into()))
}

/// The trailer on both sides: the package's answer, and what the Rust has against it.
fn trailer(report: &mut Report, file: &[u8]) -> Option<String> {
    let theirs = rp::trailer_message(file);
    report.equal("trailer accepted", wobarelind::body_of(file).is_ok(), theirs.is_none());
    let said = theirs.as_ref().map_or("accepted".into(), |why| format!("refused ({why}); below stands the body alone"));
    report.part("trailer", &said);
    theirs
}

/// The number of each side for this data.
fn validate(report: &mut Report, sides: &Sides) {
    let ours = ours::validate(sides.body, sides.data.len() as u64);
    report.equal("validate", ours, sides.rust.number);
    let said = if ours == 0 { "accepted".into() } else { format!("refused with {ours}") };
    report.part("validate", &said);
}

/// Every key that can be read, looked up; what the answers were.
fn gets(report: &mut Report, sides: &Sides, asked: &Asked) {
    let [put, withdrawn, nothing, damage] = lookups::compare(report, sides, asked);
    let all = &asked.keys;
    let versions: u64 = all.iter().map(|key| key.versions).sum();
    let many = all.iter().filter(|key| key.versions > keys::VERSIONS).count();
    let bound = match many {
        0 => String::new(),
        n => format!("; of {n} keys only the first and last {} versions gave limits", keys::VERSIONS / 2),
    };
    let read = format!("{} of {} read", counted(all.len() as u64, "key"), counted(versions, "version"));
    let met = format!("{put} put, {withdrawn} withdrawn, {nothing} nothing, {damage} times 14");
    report.part("get", &format!("{read}; {met}{bound}"));
    if sides.rust.number == 22 {
        say!("    a direct pilot lies past n: where the Rust reads on, 14 is document 01's (docs/DIFFERENCES.md)");
    }
}

/// What finish makes of an arena, on our side and on the Rust's. Both have all the room that they need: 6 and 9 can't come.
fn finished(arena: &[u8]) -> [Result<Vec<u8>, u64>; 2] {
    let _waiting = Progress::waiting("fresh finish");
    let room = usize::MAX;
    [wobarelind::finish(arena).map_err(Refusal::number), theirs::finish(arena, room, room, room, 1)]
}

/// A fresh finish of the arena: the same bytes on both sides, and, if the file was accepted, the same answers as the file's. Its refusal.
fn finish(report: &mut Report, file: &Sides, arena: &[u8], asked: &Asked, data: &Arc<[u8]>) -> Option<Refusal> {
    let [ours, theirs] = finished(arena);
    report.ask(ours == theirs, || differing(&ours, &theirs));
    let made = match &ours {
        Err(10) => "refused with 10".into(),
        Err(number) => {
            format!("refused with {number}, which is document 01's: the Rust has no such check (docs/DIFFERENCES.md)")
        }
        Ok(body) if body == file.body => "the file's body again".into(),
        Ok(_) if file.rust.number > 0 => "another body than the file's, which validation refuses".into(),
        Ok(body) => format!("another body than the file's: {} (docs/DIFFERENCES.md, 1)", regions(body, file.body)),
    };
    report.part("fresh finish", &made);
    if let Ok(body) = &ours
        && body != file.body
        && file.rust.number == 0
    {
        lookups::compare_fresh(report, file, &Sides::new(body, data), asked);
        report.part("get on the fresh body", "the answers of the file's body");
    }
    ours.err().and_then(Refusal::from_number)
}

/// How many of the seed, the pilots and the slots are others in two accepted bodies of one arena.
fn regions(fresh: &[u8], file: &[u8]) -> String {
    let n = u32::from_le_bytes([fresh[16], fresh[17], fresh[18], fresh[19]]) as usize;
    let slots = 32 + 4 * n.div_ceil(3);
    let others = |range: std::ops::Range<usize>, width: usize| {
        let pairs = fresh[range.clone()].chunks(width).zip(file[range].chunks(width));
        pairs.filter(|(a, b)| a != b).count()
    };
    let (seed, pilots, slots) = (others(8..16, 8), others(32..slots, 4), others(slots..slots + 12 * n, 12));
    format!("{pilots} other pilots, {slots} other slots, {} seed", if seed == 0 { "the same" } else { "another" })
}

/// Both results of finish: the numbers, or the first byte that differs.
fn differing(ours: &Result<Vec<u8>, u64>, theirs: &Result<Vec<u8>, u64>) -> String {
    let told = |side: &Result<Vec<u8>, u64>| match side {
        Ok(body) => format!("{} bytes", body.len()),
        Err(number) => number.to_string(),
    };
    let at = match (ours, theirs) {
        (Ok(a), Ok(b)) => a.iter().zip(b).position(|(x, y)| x != y).map(|at| format!(", from byte {at} on")),
        _ => None,
    };
    format!("finish: ours {}, the Rust {}{}", told(ours), told(theirs), at.unwrap_or_default())
}

/// The listing at 2^64 - 1, and at the limit; whether the body is short enough to be listed.
fn listings(report: &mut Report, sides: &Sides, limit: u64) -> bool {
    let size = 16 + sides.body.len();
    if size > MOST_LISTED {
        say!("listing: left out, its input would have {size} bytes, over {MOST_LISTED}");
        return false;
    }
    listing(report, sides, u64::MAX);
    if limit < u64::MAX {
        listing(report, sides, limit);
    }
    true
}

/// The listing at a limit, against the text rendered from the Rust's answers.
fn listing(report: &mut Report, sides: &Sides, limit: u64) {
    let length = sides.data.len() as u64;
    let input = [&limit.to_le_bytes()[..], &length.to_le_bytes(), sides.body].concat();
    let (mut out, mut size) = (vec![0; 131_072], [0]);
    let number = ours::listing(&input, &mut out, &mut size);
    let ours = String::from_utf8_lossy(&out[..size[0] as usize]).into_owned();
    let first = ours.lines().next().unwrap_or_default().to_string();
    report.equal("listing", (number, ours), (0, sides.rust.listing(limit)));
    report.part("listing", &first);
}
