//! One line of a script becomes one step, or a mistake.

use crate::call::ROOM;
use crate::word::{find_unquoted, number, text_bytes, words, Word};
use crate::{
    Call, Command, Expected, FrameName, MailboxCall, Mistake, Product, RegisterName, Side, Wanted,
    Way,
};
use std::fmt;
use std::vec::IntoIter;

/// A call and the answer that the script expects, if it expects one.
#[derive(Clone, Debug, PartialEq, Eq, Hash)]
pub struct Step {
    /// The call.
    pub call: Call,
    /// The expected answer.
    pub expected: Option<Expected>,
}

/// A step that expects no answer.
impl From<Call> for Step {
    fn from(call: Call) -> Step {
        Step {
            call,
            expected: None,
        }
    }
}

impl fmt::Display for Step {
    fn fmt(&self, f: &mut fmt::Formatter<'_>) -> fmt::Result {
        write!(f, "{}", self.call)?;
        match &self.expected {
            Some(expected) => write!(f, " => {expected}"),
            None => Ok(()),
        }
    }
}

/// Reads one line that speaks of this product, or makes one. `None` is a line without a call:
/// empty, or a comment.
///
/// # Errors
///
/// The mistake says what was expected and what was found; the caller knows the line's number.
pub fn parse(product: Product, line: &str) -> Result<Option<Step>, Mistake> {
    let line = &line[..find_unquoted(line, "#").unwrap_or(line.len())];
    let (call, expected) = match find_unquoted(line, "=>") {
        Some(place) => (&line[..place], Some(&line[place + 2..])),
        None => (line, None),
    };
    let mut words = words(call)?.into_iter();
    let name = match (words.next(), expected) {
        (None, None) => return Ok(None),
        (None, Some(_)) => return Err(Mistake::NoCall),
        (Some(name), _) => name,
    };
    let expected = match expected {
        Some(text) => Some(Expected::new(text).ok_or(Mistake::NoAnswer)?),
        None => None,
    };
    let call = parse_call(product, name, words)?;
    Ok(Some(Step { call, expected }))
}

fn parse_call(
    product: Product,
    name: Word<'_>,
    words: IntoIter<Word<'_>>,
) -> Result<Call, Mistake> {
    use Product::{Bridge, Mailbox};

    let rest = |after| Rest { after, words };
    let mailbox = |call: Result<MailboxCall, Mistake>| call.map(Call::Mailbox);
    match (product, name.plain().unwrap_or_default()) {
        (_, "create") => rest("create").create(),
        (_, "mailbox") => mailbox(rest("mailbox").mailbox()),
        (Bridge, "reset") => rest("reset").end(Call::Reset),
        (Bridge, "restore") => rest("restore").bytes().map(Call::Restore),
        (Bridge, "register") => rest("register").register(),
        (Bridge, "line") => rest("line").line_bytes(),
        (Bridge, "break") => rest("break").end(Call::Break),
        (Bridge, "key") => rest("key").end(Call::Key),
        (Bridge, "ask") => rest("ask").end(Call::Ask),
        (Bridge, "take") => rest("take").byte().map(Call::Take),
        (Bridge, "frame") => rest("frame").bridge_frame(),
        (Bridge, "show") => rest("show").side().map(Call::Show),
        (Bridge, "state") => rest("state").end(Call::State),
        (Mailbox, "reset") => mailbox(rest("reset").end(MailboxCall::Reset)),
        (Mailbox, "restore") => mailbox(rest("restore").bytes().map(MailboxCall::Restore)),
        (Mailbox, "frame") => mailbox(rest("frame").frame().map(MailboxCall::Frame)),
        (Mailbox, "command") => mailbox(rest("command").command().map(MailboxCall::Command)),
        (Mailbox, "byte") => mailbox(rest("byte").marked_bytes()),
        (Mailbox, "fetch") => mailbox(rest("fetch").end(MailboxCall::Fetch)),
        (Mailbox, "clear") => mailbox(rest("clear").end(MailboxCall::Clear)),
        (Mailbox, "lines") => mailbox(rest("lines").end(MailboxCall::Lines)),
        (Mailbox, "show") => mailbox(rest("show").way().map(MailboxCall::Show)),
        (Mailbox, "state") => mailbox(rest("state").end(MailboxCall::State)),
        _ => Err(Mistake::UnknownCall {
            product,
            found: name.shown(),
        }),
    }
}

/// The words after a call's name, which mistakes in them cite.
struct Rest<'a> {
    after: &'static str,
    words: IntoIter<Word<'a>>,
}

impl Rest<'_> {
    fn create(mut self) -> Result<Call, Mistake> {
        let call = Call::Create {
            receive: self.number(Wanted::ReceiveLength)?,
            transmit: self.number(Wanted::TransmitLength)?,
            margin: self.number(Wanted::Margin)?,
        };
        self.end(call)
    }

    fn mailbox(mut self) -> Result<MailboxCall, Mistake> {
        let call = MailboxCall::Create {
            to_bus: self.number(Wanted::ToBusLength)?,
            to_loop: self.number(Wanted::ToLoopLength)?,
            address: self.number(Wanted::BusAddress)?,
        };
        self.end(call)
    }

    fn register(mut self) -> Result<Call, Mistake> {
        let call = Call::Register {
            number: self.word(Wanted::Register, RegisterName::parse)?,
            value: self.number(Wanted::Value)?,
        };
        self.end(call)
    }

    /// One byte.
    fn byte(mut self) -> Result<u8, Mistake> {
        let byte = self.number(Wanted::Byte)? as u8;
        self.end(byte)
    }

    /// Bytes and texts up to the end of the line, at least one.
    fn bytes(mut self) -> Result<Vec<u8>, Mistake> {
        self.bytes_before(None)
    }

    /// Bytes and texts up to the end of the line, at least one; the word room after them asks for
    /// the room that is left.
    fn line_bytes(mut self) -> Result<Call, Mistake> {
        let bytes = self.bytes_before(Some(ROOM))?;
        match self.words.next() {
            None => Ok(Call::Line(bytes)),
            Some(_) => self.end_after(ROOM, Call::LineAndRoom(bytes)),
        }
    }

    /// A frame; the word room after it asks for the room that is left.
    fn bridge_frame(mut self) -> Result<Call, Mistake> {
        let frame = self.word(Wanted::Frame, FrameName::parse)?;
        match self.words.next() {
            None => Ok(Call::Frame(frame)),
            Some(Word::Plain(ROOM)) => self.end_after(ROOM, Call::FrameAndRoom(frame)),
            word => Err(self.mistake(Wanted::RoomOrNothing, word)),
        }
    }

    /// Bytes and texts up to the end of the line, at least one; the word end after them is the
    /// end mark of the last.
    fn marked_bytes(mut self) -> Result<MailboxCall, Mistake> {
        let bytes = self.bytes_before(Some("end"))?;
        let end = self.words.next().is_some();
        self.end(MailboxCall::Byte { bytes, end })
    }

    /// Bytes and texts up to the end of the line or up to this word, at least one.
    fn bytes_before(&mut self, word: Option<&str>) -> Result<Vec<u8>, Mistake> {
        let mut bytes = Vec::new();
        loop {
            match self.words.as_slice() {
                [Word::Text(text), ..] => {
                    bytes.extend(text_bytes(text)?);
                    self.words.next();
                }
                [] if !bytes.is_empty() => return Ok(bytes),
                [Word::Plain(next), ..] if !bytes.is_empty() && word == Some(*next) => {
                    return Ok(bytes)
                }
                _ => bytes.push(self.number(Wanted::Byte)? as u8),
            }
        }
    }

    fn frame(mut self) -> Result<u32, Mistake> {
        let frame = self.word(Wanted::Frame, FrameName::parse)?;
        self.end(frame)
    }

    fn command(mut self) -> Result<Command, Mistake> {
        let (name, command, more) = self.word(Wanted::Command, Command::parse)?;
        self.after = name;
        let added = match more {
            Some(largest) => self.number(Wanted::UpTo(largest))?,
            None => 0,
        };
        self.end(command.plus(added))
    }

    fn side(mut self) -> Result<Side, Mistake> {
        let side = self.word(Wanted::Side, |word| match word {
            "receive" => Some(Side::Receive),
            "transmit" => Some(Side::Transmit),
            _ => None,
        })?;
        self.end(side)
    }

    fn way(mut self) -> Result<Way, Mistake> {
        let way = self.word(Wanted::Way, |word| match word {
            "bus" => Some(Way::Bus),
            "loop" => Some(Way::Loop),
            _ => None,
        })?;
        self.end(way)
    }

    fn number(&mut self, wanted: Wanted) -> Result<u32, Mistake> {
        self.word(wanted, |word| number(word, wanted.largest()))
    }

    /// What the next word means.
    fn word<T>(
        &mut self,
        wanted: Wanted,
        meaning: impl FnOnce(&str) -> Option<T>,
    ) -> Result<T, Mistake> {
        let word = self.words.next();
        let meant = word.and_then(Word::plain).and_then(meaning);
        meant.ok_or_else(|| self.mistake(wanted, word))
    }

    /// What was read, if no word is left after this one.
    fn end_after<T>(mut self, word: &'static str, read: T) -> Result<T, Mistake> {
        self.after = word;
        self.end(read)
    }

    /// What was read, if no word is left.
    fn end<T>(mut self, read: T) -> Result<T, Mistake> {
        match self.words.next() {
            None => Ok(read),
            word => Err(self.mistake(Wanted::NothingMore, word)),
        }
    }

    fn mistake(&self, wanted: Wanted, word: Option<Word<'_>>) -> Mistake {
        Mistake::Word {
            after: self.after,
            wanted,
            found: word.map(Word::shown),
        }
    }
}
