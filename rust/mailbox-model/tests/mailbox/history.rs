//! What was left and fetched, carried from call to call, and the laws that it judges calls by.

use crate::walk::Call;
use crate::world::{f, World};
use raftershim_mailbox_model::{Answer, ACTIVE_DATA, ACTIVE_STATUS, ADDRESSED, END, SERVICE};

/// One call as it is seen.
#[derive(Debug)]
pub struct Seen<'a, const B: usize, const L: usize> {
    pub before: &'a World<B, L>,
    pub call: Call,
    pub answer: Answer,
    pub after: &'a World<B, L>,
}

/// Bit 0 of the loop's status byte, by the history alone.
#[derive(Clone, Copy, Debug, Default, PartialEq, Eq, Hash)]
pub struct LoopNews {
    /// Whether something came into the empty way and no status byte has told it.
    untold: bool,
    /// Whether it came after the last status byte was sent.
    since_sent: bool,
}

/// For each way: what was left since its last clear and is not fetched, oldest first. What was
/// fetched, then what waits, is what was left: so each fetch gives the first of these, and these
/// are what waits.
#[derive(Clone, Debug, Default)]
pub struct History {
    to_bus: Vec<u16>,
    to_loop: Vec<u16>,
    pub news: LoopNews,
}

pub const REFUSED_CHANGES: &str = "a refused call changes nothing";
pub const ONE_FRAME: &str = "every frame taken gives one frame out, and nothing else does";
pub const BUSY: &str = "refusal 4 is given exactly when a listener has no room";
pub const FITS: &str = "a state that fits stays one";
pub const FETCHED: &str = "what is fetched is the oldest that was left";
pub const WAITS: &str = "what waits is what was left and not fetched";
pub const REQUEST: &str = "a request shows only while something waits";
pub const NEWS: &str = "data available stays until it is told or nothing waits";

type Judged = Result<(), &'static str>;

/// The law holds, or it is the one that is broken.
fn hold(holds: bool, law: &'static str) -> Judged {
    if holds {
        Ok(())
    } else {
        Err(law)
    }
}

/// A data frame as a cell.
fn cell(frame: u16) -> u16 {
    frame & 255 | if frame & END != 0 { 256 } else { 0 }
}

impl<const B: usize, const L: usize> Seen<'_, B, L> {
    fn frame(&self) -> Option<u16> {
        self.call.frame(self.before)
    }

    fn refused(&self) -> bool {
        matches!(self.answer, Answer::Refused(_))
    }

    /// What the loop offers to a listener.
    fn offered_by_loop(&self) -> Option<u16> {
        let data = self.frame().filter(|&frame| frame < 1024);
        data.filter(|_| self.before.mailbox.loop_side.listener)
            .map(cell)
    }

    /// What the bus offers to a listener.
    fn offered_by_bus(&self) -> Option<u16> {
        match self.call {
            Call::Byte(byte, mark) if self.before.mailbox.bus_side.listener => {
                Some(u16::from(byte) + 256 * u16::from(mark))
            }
            _ => None,
        }
    }

    /// What goes to the loop from the store: a data frame sent, neither status nor of an ID.
    fn fetched_by_loop(&self) -> Option<u16> {
        let side = self.after.mailbox.loop_side;
        match self.answer {
            Answer::Frame(out) if out < 1024 => {
                let from_store = side.talker == ACTIVE_DATA && side.source == 0;
                Some(cell(out)).filter(|_| from_store)
            }
            _ => None,
        }
    }

    /// What goes to the bus from the store: a byte handed over outside serial poll mode.
    fn fetched_by_bus(&self) -> Option<u16> {
        match self.answer {
            Answer::Byte { byte, end } if !self.before.mailbox.bus_side.serial_poll => {
                Some(u16::from(byte) + 256 * u16::from(end))
            }
            _ => None,
        }
    }

    /// Whether the call clears the way to the bus, the way to the loop.
    fn clears(&self) -> (bool, bool) {
        let on_loop = self.before.mailbox.loop_side.listener;
        let on_bus = self.before.mailbox.bus_side.listener;
        let clear = |data, listener| data == 20 || data == 4 && listener;
        match self.call {
            Call::Frame(frame) if frame >> 8 == 4 => (clear(frame & 255, on_loop), false),
            Call::Order(command) => (false, clear(command.into(), on_bus)),
            Call::Reset => (true, true),
            _ => (false, false),
        }
    }

    /// Whether a status byte of ours that showed bit 0 came back unchanged.
    fn told(&self) -> bool {
        let side = self.before.mailbox.loop_side;
        let back = |frame: u16| frame & !SERVICE == side.under_way;
        side.talker == ACTIVE_STATUS && side.under_way & 1 != 0 && self.frame().map_or(false, back)
    }

    fn sends_status(&self) -> bool {
        self.call == Call::Frame(5 << 8 | 97) && self.before.mailbox.loop_side.talker == ADDRESSED
    }
}

impl History {
    /// Judges a call by every law, and goes on with it.
    pub fn judge<const B: usize, const L: usize>(&mut self, seen: &Seen<B, L>) -> Judged {
        self.answers(seen)?;
        self.carry(seen)?;
        hold(seen.after.fits(), FITS)?;
        let waits = (seen.after.for_bus(), seen.after.for_loop());
        hold((&waits.0, &waits.1) == (&self.to_bus, &self.to_loop), WAITS)?;
        self.requests(seen.after)?;
        let available = seen.after.mailbox.to_loop.news.available;
        hold(available == self.news.untold, NEWS)
    }

    /// The kind of the answer, and what refusals leave.
    fn answers<const B: usize, const L: usize>(&self, seen: &Seen<B, L>) -> Judged {
        let full = seen
            .offered_by_loop()
            .map_or(false, |_| self.to_bus.len() == B)
            || seen
                .offered_by_bus()
                .map_or(false, |_| self.to_loop.len() == L);
        hold((seen.answer == Answer::Refused(4)) == full, BUSY)?;
        hold(
            !seen.refused() || seen.before == seen.after,
            REFUSED_CHANGES,
        )?;
        let frame_out = matches!(seen.answer, Answer::Frame(0..=2047));
        hold(frame_out == (seen.frame().is_some() && !full), ONE_FRAME)
    }

    /// What the call leaves, fetches and clears.
    fn carry<const B: usize, const L: usize>(&mut self, seen: &Seen<B, L>) -> Judged {
        let (clears_to_bus, clears_to_loop) = seen.clears();
        if clears_to_bus {
            self.to_bus.clear();
        }
        if clears_to_loop {
            self.to_loop.clear();
        }
        if !seen.refused() {
            self.tell(seen);
            self.to_bus.extend(seen.offered_by_loop());
            self.to_loop.extend(seen.offered_by_bus());
        }
        fetch(&mut self.to_bus, seen.fetched_by_bus())?;
        fetch(&mut self.to_loop, seen.fetched_by_loop())?;
        if self.to_loop.is_empty() {
            self.news = LoopNews::default();
        }
        Ok(())
    }

    /// What becomes of the loop's news.
    fn tell<const B: usize, const L: usize>(&mut self, seen: &Seen<B, L>) {
        if self.to_loop.is_empty() && seen.offered_by_bus().is_some() {
            self.news.untold = true;
            self.news.since_sent = true;
        }
        if seen.sends_status() {
            self.news.since_sent = false;
        }
        if seen.told() && !self.news.since_sent {
            self.news.untold = false;
        }
    }

    /// What both sides see of requests, asked of a copy.
    fn requests<const B: usize, const L: usize>(&self, after: &World<B, L>) -> Judged {
        let asking = |answer| matches!(answer, Answer::Lines { srq: true, .. });
        hold(!asking(after.lines()) || !self.to_bus.is_empty(), REQUEST)?;
        let mut copy = *after;
        hold(
            copy.frame(6, 0) != f(7, 0) || !self.to_loop.is_empty(),
            REQUEST,
        )
    }
}

/// What is fetched must be the oldest of what was left.
fn fetch(left: &mut Vec<u16>, fetched: Option<u16>) -> Judged {
    match fetched {
        None => Ok(()),
        Some(_) if left.is_empty() => Err(FETCHED),
        Some(cell) => hold(left.remove(0) == cell, FETCHED),
    }
}
