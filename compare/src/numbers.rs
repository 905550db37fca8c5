//! The numbers of refusals: their causes are the package's, what to do at each stands in docs/NUMBERS.md; and how often a run met each.
use crate::say::say;
use std::collections::BTreeMap;
use wobarelind::Refusal;

/// The table of the numbers: `| number | name | cause | given by | what to do |`.
const TABLE: &str = include_str!("../../docs/NUMBERS.md");

/// What a run can't meet of a number: of 5 a part, of 11 all.
const UNMET: &[(Refusal, &str)] = &[
    (Refusal::COUNT, "by keys alone: a version beyond 4,294,967,295 needs a buffer of 90 GB"),
    (Refusal::SELF_CHECK, "can't be met: finish never answers it"),
];

/// What docs/NUMBERS.md says to do at a refusal; nothing where it has no such row.
fn what_to_do(refusal: Refusal) -> &'static str {
    let columns = |row: &'static str| row.split('|').map(str::trim).collect::<Vec<_>>();
    let what = TABLE.lines().map(columns).find_map(|row| match row[..] {
        ["", of, _, _, _, what, ""] if of == refusal.number().to_string() => Some(what),
        _ => None,
    });
    what.unwrap_or_default()
}

/// A refusal's number, its cause and what to do, as a verdict has them.
pub fn told(refusal: Refusal) -> String {
    format!("{}: {}. {}", refusal.number(), refusal.cause(), what_to_do(refusal))
}

/// What is wrong with how often a number was answered, or with docs/NUMBERS.md; nothing where all is well.
fn wrong(refusal: Refusal, times: u64) -> Option<&'static str> {
    if what_to_do(refusal).is_empty() {
        return Some("has no row in docs/NUMBERS.md");
    }
    match (times > 0, refusal == Refusal::SELF_CHECK) {
        (false, false) => Some("was never met"),
        (true, true) => Some("was met, and finish never answers it"),
        _ => None,
    }
}

/// Prints a row of the table: the number, how often it was answered, its cause, and a note on that. Whether all is well.
fn row(refusal: Refusal, times: u64) -> bool {
    let wrong = wrong(refusal, times);
    let unmet = UNMET.iter().find(|(of, _)| *of == refusal).map(|(_, why)| *why);
    let note = wrong.or(unmet).map_or(String::new(), |note| format!(" [{note}]"));
    say!("{:>6} {times:>10}  {}{note}", refusal.number(), refusal.cause());
    wrong.is_none()
}

/// Prints the table, and says whether each number that can be met was, and no other.
pub fn print(met: &BTreeMap<u64, u64>) -> bool {
    let times = |number| met.get(&number).copied().unwrap_or(0);
    say!("{:>6} {:>10}  cause", "number", "answers");
    say!("{:>6} {:>10}  none: taken, accepted, found, nothing, absent, maybe", 0, times(0));
    let fine = Refusal::ALL.into_iter().map(|refusal| row(refusal, times(refusal.number())));
    let fine = fine.fold(times(0) > 0, |all, one| all && one);
    let others: Vec<&u64> = met.keys().filter(|&&n| n > 0 && Refusal::from_number(n).is_none()).collect();
    others.iter().for_each(|number| say!("{number:>6} {:>10}  [no number of document 01]", times(**number)));
    fine && others.is_empty()
}
