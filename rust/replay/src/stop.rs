//! Why the program ends before the end of the script.

use crate::{DIFFERENT, NOT_RUN};
use raftershim::BadSize;
use script::Unread;
use std::error::Error;
use std::ffi::OsString;
use std::fmt;
use std::io::{self, ErrorKind};

/// Why the program ends early: its sentence is for the one who listens.
#[derive(Debug)]
pub enum Stop {
    /// There is no such option.
    UnknownOption(OsString),
    /// There is an argument after the script.
    TooMany(OsString),
    /// The script cannot be opened.
    CannotOpen {
        /// The script's path as it was given.
        path: OsString,
        /// What the system says.
        error: io::Error,
    },
    /// The script has a mistake or cannot be read.
    Unread(Unread),
    /// The bridge that a script without create gets was refused.
    Refused(BadSize),
    /// The answers cannot be written.
    Writing(io::Error),
}

impl Stop {
    /// Whether there is somebody to tell: not if the one who listens has gone.
    pub fn is_told(&self) -> bool {
        !matches!(self, Stop::Writing(error) if error.kind() == ErrorKind::BrokenPipe)
    }

    /// The exit status that tells of it.
    pub fn status(&self) -> u8 {
        match self {
            Stop::Unread(Unread::Mistake { .. }) => DIFFERENT,
            _ => NOT_RUN,
        }
    }
}

impl fmt::Display for Stop {
    fn fmt(&self, f: &mut fmt::Formatter<'_>) -> fmt::Result {
        match self {
            Stop::UnknownOption(option) => {
                let option = option.to_string_lossy();
                write!(f, "there is no option {option}, try replay --help")
            }
            Stop::TooMany(argument) => {
                let argument = argument.to_string_lossy();
                write!(f, "expected one script, found {argument} after it")
            }
            Stop::CannotOpen { path, error } => {
                let path = path.to_string_lossy();
                write!(f, "the script {path} cannot be opened: {error}")
            }
            Stop::Unread(unread) => write!(f, "{unread}"),
            Stop::Refused(bad) => write!(f, "no bridge, {bad}"),
            Stop::Writing(error) => write!(f, "the answers cannot be written: {error}"),
        }
    }
}

impl Error for Stop {
    fn source(&self) -> Option<&(dyn Error + 'static)> {
        match self {
            Stop::CannotOpen { error, .. } | Stop::Writing(error) => Some(error),
            Stop::Unread(unread) => Some(unread),
            _ => None,
        }
    }
}
