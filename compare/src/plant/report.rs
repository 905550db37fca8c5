//! What a command prints: a line for each part with its questions, the first three differences in full, the sum, and the verdict.
use super::verdict::Verdict;
use crate::End;
use crate::say::say;
use std::fmt::Debug;

/// So many of what is counted, one or more.
pub fn counted(n: u64, what: &str) -> String {
    format!("{n} {what}{}", if n == 1 { "" } else { "s" })
}

/// The questions of a command so far.
#[derive(Default)]
pub struct Report {
    questions: u64,
    differ: u64,
    /// The sums when the last part was printed.
    told: (u64, u64),
    first: Vec<String>,
}

impl Report {
    /// Counts a question; of those that differ the first three are kept.
    pub fn ask(&mut self, same: bool, tell: impl FnOnce() -> String) {
        self.questions += 1;
        self.differ += !same as u64;
        if !same && self.first.len() < 3 {
            self.first.push(tell());
        }
    }
    /// A question whose two answers can be printed as they are.
    pub fn equal<T: PartialEq + Debug>(&mut self, what: &str, ours: T, theirs: T) {
        self.ask(ours == theirs, || format!("{what}: ours {ours:?}, the Rust {theirs:?}"));
    }
    /// Prints the part that ends here.
    pub fn part(&mut self, name: &str, note: &str) {
        let (questions, differ) = (self.questions - self.told.0, self.differ - self.told.1);
        say!("{name:<24} {:>19}, {differ} differ; {note}", counted(questions, "question"));
        self.told = (self.questions, self.differ);
    }
    /// Prints how it ends.
    pub fn end(self, verdict: Verdict) -> End {
        let (text, end) = self.ended(verdict);
        say!("{text}");
        end
    }
    /// The differences, the sum, and as the last line what it means: the verdict, unless something differs.
    fn ended(self, verdict: Verdict) -> (String, End) {
        let Verdict { end, words } = if self.differ == 0 { verdict } else { Verdict::differs() };
        let differences: String = self.first.iter().map(|difference| format!("differs: {difference}\n")).collect();
        let sum = format!("{}, {} differ", counted(self.questions, "question"), self.differ);
        (format!("{differences}{sum}\n{words}"), end)
    }
}

#[cfg(test)]
mod tests {
    use super::*;

    /// So many questions, of which the first ones differ, under a verdict that all is well.
    fn ended(questions: u64, differ: u64) -> (String, End) {
        let mut report = Report::default();
        (0..questions).for_each(|i| report.ask(i >= differ, || format!("question {i}")));
        report.ended(Verdict::same("all is well"))
    }

    #[test]
    fn where_nothing_differs_the_verdict_stands() {
        assert_eq!(ended(2, 0), ("2 questions, 0 differ\nall is well".into(), End::Same));
        assert_eq!(ended(1, 0), ("1 question, 0 differ\nall is well".into(), End::Same));
    }

    #[test]
    fn one_difference_is_shown_and_takes_the_verdicts_place() {
        let last = "where it differs, this code does not do what the Rust does: \
            keep the files, and rely on neither answer until it is explained";
        assert_eq!(ended(2, 1), (format!("differs: question 0\n2 questions, 1 differ\n{last}"), End::Differs));
        assert_eq!(End::Differs as u8, 1);
    }

    #[test]
    fn three_differences_are_shown_and_all_are_counted() {
        let (text, end) = ended(9, 5);
        let lines: Vec<&str> = text.lines().collect();
        assert_eq!(
            lines[..4],
            ["differs: question 0", "differs: question 1", "differs: question 2", "9 questions, 5 differ"]
        );
        assert_eq!((lines.len(), end), (5, End::Differs));
    }

    #[test]
    fn two_answers_that_are_not_equal_are_both_told() {
        let mut report = Report::default();
        report.equal("validate", 0, 26);
        let (text, end) = report.ended(Verdict::same(""));
        assert!(text.starts_with("differs: validate: ours 0, the Rust 26\n1 question, 1 differ\n"), "{text}");
        assert_eq!(end, End::Differs);
    }
}
