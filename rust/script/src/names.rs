//! Frames and registers by the names that scripts have for them.

use crate::word::number;
use std::fmt;

/// A letter, the number of the first register that it names, and how many it names.
const LETTERS: [(char, u32, u32); 2] = [('R', 0, 13), ('C', 16, 6)];

/// A frame as control and data, or as a plain number where it is no frame.
#[derive(Clone, Copy, Debug, PartialEq, Eq)]
pub struct FrameName(pub u32);

impl fmt::Display for FrameName {
    fn fmt(&self, f: &mut fmt::Formatter<'_>) -> fmt::Result {
        match self.0 {
            frame @ 0..=2047 => write!(f, "{},{}", frame >> 8, frame & 255),
            number => write!(f, "{number}"),
        }
    }
}

impl FrameName {
    /// The frame that a word names.
    pub(crate) fn parse(word: &str) -> Option<u32> {
        match word.split_once(',') {
            Some((control, data)) => {
                Some(number(control, u32::MAX >> 8)? << 8 | number(data, 255)?)
            }
            None => number(word, u32::MAX),
        }
    }
}

/// A register by its letter and two digits, or by its number where it has no name.
#[derive(Clone, Copy, Debug, PartialEq, Eq)]
pub struct RegisterName(pub u32);

impl fmt::Display for RegisterName {
    fn fmt(&self, f: &mut fmt::Formatter<'_>) -> fmt::Result {
        let named =
            |&(_, first, count): &(char, u32, u32)| (first..first + count).contains(&self.0);
        match LETTERS.into_iter().find(named) {
            Some((letter, first, _)) => write!(f, "{letter}{:02}", self.0 - first),
            None => write!(f, "{}", self.0),
        }
    }
}

impl RegisterName {
    /// The number of the register that a word names.
    pub(crate) fn parse(word: &str) -> Option<u32> {
        let named = LETTERS.into_iter().find_map(|(letter, first, count)| {
            let digits = word.strip_prefix([letter, letter.to_ascii_lowercase()])?;
            let number = number(digits, count - 1).filter(|_| digits.len() == 2)?;
            Some(first + number)
        });
        named.or_else(|| number(word, u32::MAX))
    }
}
