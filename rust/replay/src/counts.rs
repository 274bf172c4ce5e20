//! What came of a whole script: the counts, the exit status and the last sentence.

use crate::{AS_EXPECTED, DIFFERENT, NOTHING_EXPECTED};
use std::fmt;

/// How the lines of a script went.
#[derive(Clone, Copy, Debug, Default, PartialEq, Eq)]
pub struct Counts {
    /// Lines with a call.
    pub calls: u64,
    /// Lines whose answer was the expected one.
    pub as_expected: u64,
    /// Lines whose answer was another one than the expected.
    pub differ: u64,
    /// Lines that were refused though they expect no answer.
    pub refused: u64,
    /// Lines that expect no answer and were not played, because there is nothing to play on.
    pub not_played: u64,
    /// The first line that was refused or not played so.
    pub first: Option<u64>,
}

impl Counts {
    /// Whether any line expects an answer: only then is something compared.
    pub fn compared(&self) -> bool {
        self.as_expected + self.differ > 0
    }

    /// Counts a line that was refused though it expects no answer.
    pub fn refused(&mut self, line: u64) {
        self.refused += 1;
        self.first.get_or_insert(line);
    }

    /// Counts a line that expects no answer and was not played.
    pub fn not_played(&mut self, line: u64) {
        self.not_played += 1;
        self.first.get_or_insert(line);
    }

    /// The exit status.
    pub fn status(&self) -> u8 {
        match self.differ + self.refused + self.not_played {
            _ if !self.compared() => NOTHING_EXPECTED,
            0 => AS_EXPECTED,
            _ => DIFFERENT,
        }
    }
}

/// The last sentence of a run.
impl fmt::Display for Counts {
    fn fmt(&self, f: &mut fmt::Formatter<'_>) -> fmt::Result {
        if self.compared() {
            let as_expected = number_of(self.as_expected, "line", "lines");
            let differ = number_of(self.differ, "differs", "differ");
            write!(f, "{as_expected} as expected, {differ}")?;
        } else {
            let calls = number_of(self.calls, "line", "lines");
            write!(f, "{calls} with a call, no answer is expected")?;
        }
        if self.refused > 0 {
            let refused = number_of(self.refused, "refusal", "refusals");
            write!(f, ", {refused} not expected")?;
        }
        if self.not_played > 0 {
            let lines = number_of(self.not_played, "line", "lines");
            write!(f, ", {lines} not played")?;
        }
        match self.first {
            Some(line) => write!(f, ", first in line {line}"),
            None => Ok(()),
        }
    }
}

/// A number with its noun.
pub(crate) fn number_of(number: u64, one: &str, many: &str) -> String {
    format!("{number} {}", if number == 1 { one } else { many })
}
