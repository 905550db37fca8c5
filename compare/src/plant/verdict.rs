//! The last line of a command: what its files come to, in a sentence, and the exit code.
use super::files::{COMPACT, FILTER, HASHES_GO, INDEX};
use crate::{End, numbers};
use wobarelind::Refusal;

/// Where something differs, whatever the files are.
const DIFFERS: &str = "where it differs, this code does not do what the Rust does: \
    keep the files, and rely on neither answer until it is explained";

/// The sentence and the exit code.
#[derive(Debug, PartialEq)]
pub struct Verdict {
    pub end: End,
    pub words: String,
}

impl Verdict {
    /// All is well.
    pub fn same(words: impl Into<String>) -> Self {
        Verdict { end: End::Same, words: words.into() }
    }
    /// Something differs.
    pub fn differs() -> Self {
        Verdict { end: End::Differs, words: DIFFERS.into() }
    }
    /// Nothing differs, and the file is refused.
    fn refused(words: String) -> Self {
        Verdict { end: End::Refused, words }
    }
}

/// A body that both sides accept: `trailer` is what the store has against the trailer, `fresh` the refusal of a fresh finish, `listed`
/// whether it could be listed. A fresh finish that is refused takes nothing from the file. A refused trailer does: validation can't see
/// every changed byte.
pub fn accepted(trailer: Option<String>, fresh: Option<Refusal>, listed: bool) -> Verdict {
    if let Some(why) = trailer {
        return Verdict::refused(format!(
            "both sides accept this body, and answer alike, but the store would refuse the file for its trailer ({why}): \
             a byte of the body or of the trailer is not the one that was written, and validation can't see every such byte. \
             Sign nothing that was read from it, and take it anew from the store."
        ));
    }
    let long = if listed { "" } else { "; it was too long to be listed (docs/NUMBERS.md, 16)" };
    let finish = fresh.map_or(String::new(), |refusal| {
        let by = if refusal == Refusal::ATTEMPTS { "both refuse" } else { "this code refuses" };
        format!("; {by} a fresh finish of its records with {} The file itself is good.", numbers::told(refusal))
    });
    Verdict::same(format!("both sides accept this index, and answer alike{long}{finish}"))
}

/// An index file that both sides refuse: `trailer` as above, and whether its body is accepted with the last five bytes.
pub fn refused(file: &[u8], refusal: Refusal, trailer: Option<String>, whole: bool) -> Verdict {
    let told = match trailer {
        _ if COMPACT.has(file) => {
            "It begins with KIBANPH3: the compact form is not carried over (docs/DIFFERENCES.md).".into()
        }
        _ if !INDEX.resembles(file) && file.len().is_multiple_of(8) => {
            format!("It does not begin with KIBANPH2, and its size is a multiple of eight: {HASHES_GO}.")
        }
        _ if !INDEX.resembles(file) => "It does not begin with KIBANPH2.".into(),
        None => "The index's trailer is right: it was written so, or its trailer was made anew.".into(),
        Some(_) if whole => "With its last five bytes it is an accepted body: the trailer is missing behind it.".into(),
        Some(why) => {
            format!("The store would refuse its trailer too ({why}): it was cut or changed since it was written.")
        }
    };
    Verdict::refused(format!("both sides refuse this file with {} {told}", numbers::told(refusal)))
}

/// What is to be said of a filter whose form is 0.
fn positive(form: Option<u64>) -> &'static str {
    if form == Some(0) { "; it is a Positive filter, which calls nothing absent" } else { "" }
}

/// A filter that both sides accept, of this form, or refuse, which has none; and how many of the given hashes it calls absent.
pub fn filter(bytes: &[u8], form: Option<u64>, absent: usize, given: usize) -> Verdict {
    if form.is_none() {
        let begins = if FILTER.has(bytes) { "" } else { " It does not begin with KIBANFL2." };
        return Verdict::refused(format!(
            "both sides refuse this filter with {}{begins}",
            numbers::told(Refusal::FILTER)
        ));
    }
    let others = match absent {
        0 => String::new(),
        _ => format!(
            "; given hashes that it calls absent: {absent} of {given}. If these are the filter's own hashes, it is another filter, \
             or they are of another hash than it was built of"
        ),
    };
    Verdict::same(format!("both sides accept this filter, and answer alike{}{others}", positive(form)))
}

/// A filter of this form that both sides build of hashes.
pub fn built(form: Option<u64>) -> Verdict {
    Verdict::same(format!("both sides build the same filter of these hashes, and it answers alike{}", positive(form)))
}

#[cfg(test)]
mod tests {
    use super::*;

    /// A verdict ends so, and says nothing before these words or after them.
    fn is(verdict: Verdict, end: End, words: &str) {
        assert_eq!(verdict, Verdict { end, words: words.into() });
    }

    /// An index file that is refused for its slots: what is told behind the number, its cause and what to do.
    fn told(file: &[u8], trailer: Option<&str>, whole: bool) -> String {
        let Verdict { end, words } = refused(file, Refusal::SLOT, trailer.map(String::from), whole);
        assert_eq!(end, End::Refused);
        let number = "both sides refuse this file with 26: slot offset or fingerprint wrong. \
            The file is damaged. Take it anew from the store. ";
        words.strip_prefix(number).expect("number, cause and what to do").into()
    }

    #[test]
    fn an_accepted_index() {
        let both = "both sides accept this index, and answer alike";
        let long = "; it was too long to be listed (docs/NUMBERS.md, 16)";
        is(accepted(None, None, true), End::Same, both);
        is(accepted(None, None, false), End::Same, &format!("{both}{long}"));
        let finish = |by: &str, refusal: Refusal| {
            format!("; {by} a fresh finish of its records with {} The file itself is good.", numbers::told(refusal))
        };
        let ten = finish("both refuse", Refusal::ATTEMPTS);
        is(accepted(None, Some(Refusal::ATTEMPTS), true), End::Same, &format!("{both}{ten}"));
        is(accepted(None, Some(Refusal::ATTEMPTS), false), End::Same, &format!("{both}{long}{ten}"));
        let five = finish("this code refuses", Refusal::COUNT);
        is(accepted(None, Some(Refusal::COUNT), true), End::Same, &format!("{both}{five}"));
    }

    #[test]
    fn an_accepted_body_behind_which_the_trailer_is_wrong() {
        let Verdict { end, words } = accepted(Some("checksum".into()), Some(Refusal::ATTEMPTS), false);
        assert_eq!(end, End::Refused);
        assert!(
            words.contains("for its trailer (checksum)") && words.ends_with("take it anew from the store."),
            "{words}"
        );
    }

    #[test]
    fn a_refused_index_and_its_trailer() {
        let file = b"KIBANPH2........";
        assert_eq!(told(file, None, false), "The index's trailer is right: it was written so, or its trailer was made anew.");
        assert!(told(file, Some("checksum"), true).ends_with("the trailer is missing behind it."));
        assert!(
            told(file, Some("checksum"), false).ends_with("(checksum): it was cut or changed since it was written.")
        );
    }

    #[test]
    fn a_refused_file_that_is_no_index() {
        assert!(told(b"KIBANPH3........", None, false).starts_with("It begins with KIBANPH3"));
        assert_eq!(told(b"litres 184", Some("type"), false), "It does not begin with KIBANPH2.");
        assert!(told(b"sixteen bytes ..", Some("type"), false).contains(HASHES_GO));
    }

    #[test]
    fn a_damaged_first_byte_makes_no_hashes_of_an_index() {
        let file = b"XIBANPH2........";
        assert!(file.len().is_multiple_of(8));
        assert!(told(file, Some("checksum"), false).ends_with("it was cut or changed since it was written."));
    }

    #[test]
    fn a_filter() {
        let both = "both sides accept this filter, and answer alike";
        is(filter(b"", Some(1), 0, 8), End::Same, both);
        is(
            filter(b"", Some(0), 0, 8),
            End::Same,
            &format!("{both}; it is a Positive filter, which calls nothing absent"),
        );
        let others = "If these are the filter's own hashes, it is another filter, \
            or they are of another hash than it was built of";
        let absent = format!("{both}; given hashes that it calls absent: 3 of 8. {others}");
        is(filter(b"", Some(1), 3, 8), End::Same, &absent);
        let number = format!("both sides refuse this filter with {}", numbers::told(Refusal::FILTER));
        is(filter(b"KIBANFL2", None, 8, 8), End::Refused, &number);
        is(filter(b"", None, 8, 8), End::Refused, &format!("{number} It does not begin with KIBANFL2."));
    }

    #[test]
    fn a_filter_that_is_built() {
        let both = "both sides build the same filter of these hashes, and it answers alike";
        is(built(Some(1)), End::Same, both);
        is(built(Some(0)), End::Same, &format!("{both}; it is a Positive filter, which calls nothing absent"));
    }
}
