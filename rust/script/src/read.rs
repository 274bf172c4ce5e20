//! Reads a script line by line.

use crate::{parse, Mistake, Product, Step};
use std::error::Error;
use std::fmt;
use std::io::{self, BufRead, Read};

/// The most bytes that a line of a script may have.
pub const LONGEST_LINE: usize = 4096;

/// Why a script is not read to its end.
#[derive(Debug)]
#[non_exhaustive]
pub enum Unread {
    /// The script has a mistake.
    Mistake {
        /// The number of the line, from 1.
        line: u64,
        /// What is wrong there.
        mistake: Mistake,
    },
    /// The script cannot be read.
    Reading(io::Error),
}

impl fmt::Display for Unread {
    fn fmt(&self, f: &mut fmt::Formatter<'_>) -> fmt::Result {
        match self {
            Unread::Mistake { line, mistake } => write!(f, "line {line}: {mistake}"),
            Unread::Reading(error) => write!(f, "the script cannot be read: {error}"),
        }
    }
}

impl Error for Unread {
    fn source(&self) -> Option<&(dyn Error + 'static)> {
        match self {
            Unread::Mistake { mistake, .. } => Some(mistake),
            Unread::Reading(error) => Some(error),
        }
    }
}

/// The steps of a script, each with the number of its line. A line is read when it is asked for. It
/// speaks of what the lines before it made last, and of a bridge if they made nothing.
pub struct Steps<R> {
    input: R,
    line: u64,
    bytes: Vec<u8>,
    product: Product,
}

impl<R: BufRead> Steps<R> {
    /// The steps of the script that this input gives.
    pub fn new(input: R) -> Steps<R> {
        Steps {
            input,
            line: 0,
            bytes: Vec::new(),
            product: Product::Bridge,
        }
    }

    /// Takes the next line, and no more of it than a line may have; false at the end.
    fn take_line(&mut self) -> io::Result<bool> {
        self.line += 1;
        self.bytes.clear();
        let mut limited = Read::take(&mut self.input, LONGEST_LINE as u64 + 1);
        Ok(limited.read_until(b'\n', &mut self.bytes)? > 0)
    }

    /// The step of the line that was taken, if it has one.
    fn step(&self) -> Result<Option<Step>, Mistake> {
        if self.bytes.len() > LONGEST_LINE {
            return Err(Mistake::TooLong);
        }
        let text = std::str::from_utf8(&self.bytes).map_err(|_| Mistake::NotText)?;
        // Some editors put a mark before the first character of a file.
        let unmarked = text.strip_prefix('\u{feff}').filter(|_| self.line == 1);
        parse(self.product, unmarked.unwrap_or(text))
    }
}

impl<R: BufRead> Iterator for Steps<R> {
    type Item = Result<(u64, Step), Unread>;

    fn next(&mut self) -> Option<Self::Item> {
        loop {
            match self.take_line() {
                Ok(true) => {}
                Ok(false) => return None,
                Err(error) => return Some(Err(Unread::Reading(error))),
            }
            let line = self.line;
            match self.step() {
                Ok(Some(step)) => {
                    self.product = step.call.product();
                    return Some(Ok((line, step)));
                }
                Ok(None) => {}
                Err(mistake) => return Some(Err(Unread::Mistake { line, mistake })),
            }
        }
    }
}
