//! Commands of the bus by the names that scripts have for them.

use crate::word::number;
use std::fmt;

/// A command of the bus. It is printed by its name, or by its number where it has none.
#[derive(Clone, Copy, Debug, PartialEq, Eq, Hash)]
pub enum Command {
    /// The command with this number, which may be none.
    Number(u32),
    /// MLA: the listen address of the mailbox, whichever it has.
    OwnListen,
    /// MTA: the talk address of the mailbox, whichever it has.
    OwnTalk,
}

/// A command by its name. Where a number has to follow the name and is added, the last is the
/// largest one.
pub(crate) type Named = (&'static str, Command, Option<u32>);

const OWN_LISTEN: &str = "MLA";
const OWN_TALK: &str = "MTA";

/// The commands that have a name.
const COMMANDS: [Named; 14] = [
    (OWN_LISTEN, Command::OwnListen, None),
    (OWN_TALK, Command::OwnTalk, None),
    ("SDC", Command::Number(4), None),
    ("PPC", Command::Number(5), None),
    ("DCL", Command::Number(20), None),
    ("PPU", Command::Number(21), None),
    ("SPE", Command::Number(24), None),
    ("SPD", Command::Number(25), None),
    ("UNL", Command::Number(63), None),
    ("UNT", Command::Number(95), None),
    ("PPD", Command::Number(112), None),
    ("LAD", Command::Number(32), Some(30)),
    ("TAD", Command::Number(64), Some(30)),
    ("PPE", Command::Number(96), Some(15)),
];

impl Command {
    /// What a word names, or the command with the number that it is.
    pub(crate) fn parse(word: &str) -> Option<Named> {
        let is_named = |&(name, ..): &Named| name.eq_ignore_ascii_case(word);
        let numbered = || Some(("command", Command::Number(number(word, u32::MAX)?), None));
        COMMANDS.into_iter().find(is_named).or_else(numbered)
    }

    /// The command with a number that is larger by this.
    pub(crate) fn plus(self, added: u32) -> Command {
        match self {
            Command::Number(number) => Command::Number(number + added),
            own => own,
        }
    }
}

impl fmt::Display for Command {
    fn fmt(&self, f: &mut fmt::Formatter<'_>) -> fmt::Result {
        let number = match self {
            Command::OwnListen => return f.write_str(OWN_LISTEN),
            Command::OwnTalk => return f.write_str(OWN_TALK),
            Command::Number(number) => number,
        };
        for (name, command, more) in COMMANDS {
            let added = (0..=more.unwrap_or(0)).find(|&added| command.plus(added) == *self);
            match (added, more) {
                (None, _) => {}
                (Some(_), None) => return f.write_str(name),
                (Some(added), Some(_)) => return write!(f, "{name} {added}"),
            }
        }
        write!(f, "{number}")
    }
}
