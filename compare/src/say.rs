//! What the tool prints on standard output, and the one line on standard error with which it stops.
use std::fmt::Arguments;
use std::io::{Write, stderr, stdout};

/// A line on standard output, as println! takes it, but without a panic where it can't be written.
macro_rules! say {
    ($($word:tt)*) => {
        crate::say::line(format_args!($($word)*))
    };
}
pub(crate) use say;

/// Writes the line. A file system that is full, or a reader that is gone, stops the tool.
pub fn line(text: Arguments) {
    if writeln!(stdout(), "{text}").is_err() {
        stop("standard output took no more");
    }
}

/// Says why the tool can't run or go on, if that can be said, and ends with exit code 2.
pub fn stop(why: &str) -> ! {
    _ = writeln!(stderr(), "beside: {why}");
    std::process::exit(2)
}
