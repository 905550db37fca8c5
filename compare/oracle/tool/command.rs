//! The oracle's commands: see README.md.
use crate::{check, hunt, lines, num, number, replay, tables, vectors};

/// What a command does with its words: it runs, or it reads or writes files, and says why it can't.
#[derive(Clone, Copy)]
enum Work {
    Runs(fn(&[&str])),
    Files(fn(&[&str]) -> Result<(), String>),
}
use Work::{Files, Runs};

/// A command's name, its words, and its work. A word with # is a number, one with < a file that is read.
type Command = (&'static str, &'static [&'static str], Work);

const ALL: &[Command] = &[
    ("lines", &[], Runs(|_| lines::run())),
    ("listing", &[], Runs(|_| lines::listing())),
    ("finish-file", &["<ARENA", "OUT"], Files(|a| lines::finish_file(a[0], a[1]))),
    ("filter-file", &["<U64S", "OUT"], Files(|a| lines::filter_file(a[0], a[1]))),
    ("figures", &[], Runs(|_| check::figures())),
    ("sizing", &["#MAX", "DIR"], Files(|a| tables::run(num(a[0]), a[1]))),
    ("sizing-by-builds", &["#A", "#B"], Runs(|a| tables::by_builds(num(a[0]), num(a[1])))),
    ("sizing-at-rows", &["#MAX"], Runs(|a| tables::at_rows(num(a[0])))),
    ("selfcheck", &["#SEED", "#ROUNDS"], Runs(|a| check::run(num(a[0]), num(a[1])))),
    ("hunt-finish", &["#SETS", "#SEED"], Runs(|a| hunt::run("finish", a))),
    ("hunt-filter", &["#SETS", "#SEED"], Runs(|a| hunt::run("filter", a))),
    ("hunt-examples", &[], Runs(|a| hunt::run("examples", a))),
    ("hunt-exhaust", &["#N", "#SECONDS", "#SEED"], Runs(|a| hunt::run("exhaust", a))),
    ("hunt-last", &["#N", "#SECONDS", "#SEED"], Runs(|a| hunt::run("last", a))),
    ("hunt-pilot-edge", &["#P", "#SEED"], Runs(|a| hunt::run("pilot-edge", a))),
    ("vectors", &["#SEED", "FILE", "#SCALE"], Files(|a| vectors::write(num(a[0]), a[1], num(a[2])))),
    ("replay", &["<FILE"], Files(|a| replay::replay(a[0]))),
];

/// A command as it is written.
fn usage((name, wanted, _): &Command) -> String {
    let words: Vec<&str> = wanted.iter().map(|word| word.trim_start_matches(['#', '<'])).collect();
    [&[*name], &words[..]].concat().join(" ")
}

/// Whether a word can be what is wanted.
fn fits(wanted: &str, word: &str) -> Result<(), String> {
    match wanted.split_at(1) {
        ("#", name) if number(word).is_none() => Err(format!("{name} is a number, not {word:?}")),
        ("<", _) => std::fs::File::open(word).map(|_| ()).map_err(|e| format!("{word}: {e}")),
        _ => Ok(()),
    }
}

/// The work that the words ask for, all of them checked; or what is wrong with them.
pub fn parse<'a>(words: &'a [&'a str]) -> Result<impl FnOnce() -> Result<(), String> + 'a, String> {
    let all = || ALL.iter().map(usage).collect::<Vec<_>>().join("\n    ");
    let (name, given) = words.split_first().ok_or_else(|| format!("the oracle's commands are:\n    {}", all()))?;
    let command = ALL.iter().find(|(of, ..)| of == name);
    let command = command.ok_or_else(|| format!("the oracle has no command {name:?}; there are:\n    {}", all()))?;
    let (_, wanted, work) = *command;
    if given.len() != wanted.len() {
        return Err(format!("its words are: oracle {}", usage(command)));
    }
    wanted.iter().zip(given).try_for_each(|(wanted, word)| fits(wanted, word))?;
    Ok(move || match work {
        Runs(run) => {
            run(given);
            Ok(())
        }
        Files(run) => run(given),
    })
}
