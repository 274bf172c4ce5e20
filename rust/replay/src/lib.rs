//! Plays a script of calls to the bridge or the mailbox and says each answer in a plain sentence.
//!
//! It is for a tester who listens: a line of a script is a call, and its answer is one line, said
//! after the number of the script's line. A script may hold the answers that it expects; then the
//! program says which lines differ. [`help::HELP`] tells the form of a script.
//!
//! - [`run`] makes the calls, line by line, and compares the answers;
//! - [`on_bridge`] and [`on_mailbox`] ask a bridge or a mailbox;
//! - [`say`] has the sentences of the answers, [`facts`] and [`mailbox_facts`] those of the states;
//! - [`counts`] says what came of it all, and [`stop`] why it ended early;
//! - [`keyboard`] tells a person who types that a script is awaited.

#![forbid(unsafe_code)]
#![deny(missing_docs)]

pub mod counts;
pub mod facts;
pub mod help;
pub mod keyboard;
pub mod mailbox_facts;
pub mod on_bridge;
pub mod on_mailbox;
pub mod run;
pub mod say;
pub mod stop;

use std::ffi::OsString;
use std::fs::File;
use std::io::{BufRead, BufReader, Write};
use stop::Stop;

/// Exit status: the script expects answers, and every line was as expected.
pub const AS_EXPECTED: u8 = 0;
/// Exit status: a line was not as expected, or the script has a mistake.
pub const DIFFERENT: u8 = 1;
/// Exit status: the arguments are wrong, the script cannot be read or the answers not be written.
pub const NOT_RUN: u8 = 2;
/// Exit status: no line expects an answer, so nothing was compared.
pub const NOTHING_EXPECTED: u8 = 3;

/// Does the program's work for these arguments and answers its exit status.
pub fn program(
    arguments: &[OsString],
    input: &mut dyn BufRead,
    out: &mut dyn Write,
    err: &mut dyn Write,
) -> u8 {
    match work(arguments, input, out) {
        Ok(status) => status,
        Err(stop) => {
            // Nobody can be told if this cannot be written either.
            let _ = out.flush();
            if stop.is_told() {
                let _ = writeln!(err, "{stop}");
            }
            stop.status()
        }
    }
}

fn work(arguments: &[OsString], input: &mut dyn BufRead, out: &mut dyn Write) -> Result<u8, Stop> {
    let counts = match arguments {
        [] => run::run(input, out)?,
        [one, ..] if one == "--help" || one == "-h" => {
            write!(out, "{}", help::HELP).map_err(Stop::Writing)?;
            return Ok(AS_EXPECTED);
        }
        [one, ..] if one.to_string_lossy().starts_with('-') => {
            return Err(Stop::UnknownOption(one.clone()));
        }
        [path] => run::run(&mut BufReader::new(open(path)?), out)?,
        [_, second, ..] => return Err(Stop::TooMany(second.clone())),
    };
    Ok(counts.status())
}

fn open(path: &OsString) -> Result<File, Stop> {
    File::open(path).map_err(|error| Stop::CannotOpen {
        path: path.clone(),
        error,
    })
}
