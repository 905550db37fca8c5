//! The refusals: what a call gives where it gives no answer.
use std::fmt;

/// Why a call was refused: a number, which has a name and a cause. `docs/NUMBERS.md` says what to do at each.
///
/// It is shown with number and cause, also by `{:?}`, so that a `main` which hands it on tells the cause:
///
/// ```
/// use wobarelind::Refusal;
///
/// assert_eq!(format!("{:?}", Refusal::HASHES), "refused 12: more than 65,536 hashes");
/// assert_eq!(Refusal::from_number(12), Some(Refusal::HASHES));
/// ```
#[derive(Clone, Copy, PartialEq, Eq, PartialOrd, Ord, Hash)]
pub struct Refusal(u64);

/// Makes the refusals of a table, a row each: name, number, cause.
macro_rules! refusals {
    ($($name:ident = $number:literal, $cause:literal;)*) => {
        impl Refusal {
            $(
                #[doc = concat!($number, ": ", $cause, ".")]
                pub const $name: Refusal = Refusal($number);
            )*

            /// Every refusal, the numbers rising.
            pub const ALL: [Refusal; [$($number),*].len()] = [$(Refusal::$name),*];

            /// The cause, in the words of `docs/NUMBERS.md`.
            pub fn cause(self) -> &'static str {
                match self {
                    $(Refusal::$name => $cause,)*
                    _ => unreachable!("every refusal is one of the table"),
                }
            }
        }
    };
}

// Held to docs/NUMBERS.md by a script, line by line: a row stays on one line.
#[rustfmt::skip]
refusals! {
    STATE = 1, "builder state and buffer do not fit";
    TOO_LONG = 2, "key over 1,048,576 or value over 16,777,216 bytes";
    TOMBSTONE = 3, "tombstone with nonzero length";
    ORDER = 4, "new key not greater than the last; continued key absent or unequal to the last; sequence not below the last one of that key";
    COUNT = 5, "add: a 65,537th key, or a version beyond 4,294,967,295; finish: no key, or more than 65,536";
    BUFFER = 6, "buffer too short";
    PLACE = 7, "place is not used - 8, or nothing added";
    ARENA = 8, "arena breaks a key or version rule (23 to 25, 27 to 29 without the data test)";
    WORKSPACE = 9, "workspace too short";
    ATTEMPTS = 10, "all eight attempts failed";
    SELF_CHECK = 11, "self-check (slots unfilled or mismatched)";
    HASHES = 12, "more than 65,536 hashes";
    DAMAGE = 14, "lookup meets damage";
    FILTER = 15, "filter bytes not accepted";
    INPUT = 16, "input under 16 or over 65,536 bytes";
    MAGIC = 20, "body under 32 bytes or wrong magic";
    DIMENSIONS = 21, "dimensions (n from 1 to 2^31 - 1, b, arena start, arena start below the body's length)";
    PILOT = 22, "a direct pilot at or past n";
    HEAD = 23, "under 8 bytes left for a key's head";
    KEY = 24, "key length over the limit or past the end, or no versions";
    KEY_ORDER = 25, "keys not strictly rising";
    SLOT = 26, "slot offset or fingerprint wrong";
    VERSION = 27, "under 21 bytes left for a version";
    KIND = 28, "kind neither 1 (put) nor 2 (tombstone)";
    VALUE = 29, "value length, offset + length past the data, tombstone with length, sequences not strictly falling";
    LEFT_OVER = 30, "bytes left over";
}

impl Refusal {
    /// The refusal that has this number; none has 0, 13, 17 to 19 or one past 30.
    pub fn from_number(number: u64) -> Option<Refusal> {
        Self::ALL.into_iter().find(|refusal| refusal.0 == number)
    }

    /// The number.
    pub fn number(self) -> u64 {
        self.0
    }
}

/// The number and the cause; for [`Refusal::ATTEMPTS`] also the call that names the keys.
impl fmt::Display for Refusal {
    fn fmt(&self, f: &mut fmt::Formatter<'_>) -> fmt::Result {
        let hint = if *self == Refusal::ATTEMPTS { "; PointBuilder::equal_hashes names the keys" } else { "" };
        write!(f, "refused {}: {}{hint}", self.0, self.cause())
    }
}

/// As it is displayed: `main` and `unwrap` show an error by its `Debug`.
impl fmt::Debug for Refusal {
    fn fmt(&self, f: &mut fmt::Formatter<'_>) -> fmt::Result {
        fmt::Display::fmt(self, f)
    }
}

impl std::error::Error for Refusal {}
