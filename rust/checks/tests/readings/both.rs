//! A reader of a meter beside the history of its line, compared after every act.

use raftershim::{Answer, Meter, Notes, Stores};
use raftershim_checks::bridge::call::{frame, Call};
use raftershim_checks::bridge::history::History;
use raftershim_checks::bridge::told::{Act, Reader, Told, Worth};
use std::collections::VecDeque;
use std::fmt;

/// What can happen at a desk with a meter.
#[derive(Clone, Copy, Debug, PartialEq, Eq)]
pub enum Letter {
    Line(u8),
    /// An end of line, both its characters.
    LineEnd,
    Read,
    /// The port lost a byte.
    Gap,
    /// The app asks for the line byte that is next, sends it and takes it.
    Out,
    /// The app takes a line byte of this name.
    Take(u8),
    Break,
    Key,
    Register(u32, u8),
    Reset,
    Clear,
    /// The app itself makes the bridge talker and asks for data.
    AskData,
    /// The app itself makes the bridge talker and asks for the status.
    AskStatus,
    /// The frame that went out last comes back.
    Back,
}

impl Letter {
    /// The acts that it is, given the frame that went out last.
    fn acts(self, last: u32) -> VecDeque<Act> {
        let calls = match self {
            Letter::Read => return [Act::Read].into(),
            Letter::Gap => return [Act::Gap].into(),
            Letter::Line(byte) => vec![Call::Line(byte)],
            Letter::LineEnd => vec![Call::Line(b'\r'), Call::Line(b'\n')],
            Letter::Out => vec![Call::Ask],
            Letter::Take(byte) => vec![Call::Take(byte)],
            Letter::Break => vec![Call::Break],
            Letter::Key => vec![Call::Key],
            Letter::Register(number, value) => vec![Call::Register(number, value.into())],
            Letter::Reset => vec![Call::Reset],
            Letter::Clear => vec![frame(4, 20)],
            Letter::AskData => vec![frame(5, 129), frame(4, 65), frame(5, 96)],
            Letter::AskStatus => vec![frame(5, 129), frame(4, 65), frame(5, 97)],
            Letter::Back => vec![Call::Frame(last)],
        };
        calls.into_iter().map(Act::Call).collect()
    }
}

/// The sizes of a desk.
#[derive(Clone, Copy, Debug)]
pub struct Sizes {
    pub rx_len: usize,
    pub margin: u32,
    /// How long a text can be.
    pub longest: usize,
}

/// How often each thing was told.
#[derive(Clone, Copy, Debug, Default, PartialEq, Eq)]
pub struct Counts {
    pub acts: usize,
    pub whole: usize,
    pub gaps: usize,
    pub not_ended: usize,
}

impl fmt::Display for Counts {
    fn fmt(&self, f: &mut fmt::Formatter) -> fmt::Result {
        let (acts, whole, gaps) = (self.acts, self.whole, self.gaps);
        let rest = self.not_ended;
        write!(
            f,
            "{acts} acts, {whole} readings whole, {gaps} with a gap, {rest} not ended"
        )
    }
}

/// The crate's meter on stores of its own.
pub type OurMeter = Meter<Vec<u16>, [u8; 3], Vec<u8>, Vec<u8>>;

/// A fresh meter of the crate.
pub fn our_meter(sizes: Sizes) -> OurMeter {
    let stores = Stores {
        receive: vec![0; sizes.rx_len],
        transmit: [0; 3],
    };
    let notes = Notes {
        gaps: vec![255; (sizes.rx_len + 7) / 8],
        text: vec![255; sizes.longest],
    };
    Meter::create(stores, notes, sizes.margin).expect("the sizes are obeyed")
}

/// A reader and the history, which go through the same.
#[derive(Clone)]
pub struct Both<M> {
    reader: M,
    history: History,
    last: u32,
}

impl<M: Reader> Both<M> {
    pub fn new(reader: M, sizes: Sizes) -> Both<M> {
        Both {
            reader,
            history: History::create(sizes.rx_len, 3, sizes.margin, sizes.longest),
            last: 0,
        }
    }

    /// Lets something happen to both: a sentence if they differ. A line byte that is next is taken.
    pub fn happens(&mut self, letter: Letter, counts: &mut Counts) -> Result<(), String> {
        let mut acts = letter.acts(self.last);
        while let Some(act) = acts.pop_front() {
            let (ours, due) = (self.reader.act(act), self.history.act(act));
            if ours != due {
                return Err(format!(
                    "{act:?}: told {ours:?}, and by history {due:?} is due"
                ));
            }
            if self.reader.block() != self.history.block() {
                return Err(format!("{act:?}: the blocks differ"));
            }
            counts.acts += 1;
            match due.0 {
                Told::Answer(Ok(Answer::Frame(out))) => self.last = out.into(),
                Told::Answer(Ok(Answer::Byte(byte))) => {
                    acts.push_front(Act::Call(Call::Take(byte)))
                }
                Told::Reading(Worth::Whole, _) => counts.whole += 1,
                Told::Reading(Worth::Gap, _) => counts.gaps += 1,
                Told::Reading(Worth::NotEnded, _) => counts.not_ended += 1,
                _ => {}
            }
        }
        Ok(())
    }
}
