//! What is known of a run from its calls and answers alone, and the laws that it holds them to.
//!
//! Of the state it knows what was there when the run started. After that it follows by itself who
//! listens, what is under way and what was told, and the state is only compared with it.

mod on_bus;
mod on_loop;
mod rows;

pub use rows::ROWS;

use super::call::Call;
use super::left::Left;
use super::news::{law, Law, Way};
use super::TheMailbox;
use crate::machine::{Made, Stores, Watcher};
use mailbox_model::boundary::{BYTE, DONE, FRAME, LINES, NONE, REFUSED};
use mailbox_model::{Mailbox, ACTIVE_DATA, ACTIVE_STATUS, SERVICE, UNASSIGNED};
use model::boundary::{kind, value};

/// What is sent.
#[derive(Clone, Copy, Debug, PartialEq, Eq, Hash)]
enum From {
    Store,
    Id,
    Status,
}

/// Our frame under way, its service bit aside.
#[derive(Clone, Copy, Debug, PartialEq, Eq, Hash)]
struct Sending {
    from: From,
    frame: u16,
}

/// The history of a run.
#[derive(Clone, Copy, Debug, PartialEq, Eq, Hash)]
pub struct History<L> {
    to_bus: Way<L>,
    to_loop: Way<L>,
    /// On the loop.
    address: u8,
    listens: bool,
    sending: Option<Sending>,
    held: Option<u16>,
    /// On the bus.
    bus_address: u8,
    bus_listens: bool,
    serial_poll: bool,
    /// Whether requests showed only while something waited when the run started.
    sound: bool,
}

/// What a step counts in, or the law that it breaks.
type Rows = Result<u32, String>;

impl<L: Left> Watcher<TheMailbox> for History<L> {
    fn starting(state: &Mailbox, (to_bus, to_loop): Stores<TheMailbox>) -> History<L> {
        let (loop_side, bus_side) = (&state.loop_side, &state.bus_side);
        let from = match (loop_side.talker, loop_side.source) {
            (ACTIVE_DATA, 0) => Some(From::Store),
            (ACTIVE_DATA, _) => Some(From::Id),
            (ACTIVE_STATUS, _) => Some(From::Status),
            _ => None,
        };
        let frame = loop_side.under_way & !SERVICE;
        let (to_bus, to_loop) = (
            Way::starting(&state.to_bus, to_bus),
            Way::starting(&state.to_loop, to_loop),
        );
        History {
            sound: to_bus.is_sound() && to_loop.is_sound(),
            to_bus,
            to_loop,
            address: loop_side.address,
            listens: loop_side.listener,
            sending: from.map(|from| Sending { from, frame }),
            held: loop_side.holds.then_some(loop_side.held),
            bus_address: bus_side.address,
            bus_listens: bus_side.listener,
            serial_poll: bus_side.serial_poll,
        }
    }

    fn note(&mut self, made: &Made<TheMailbox>) -> Result<u32, String> {
        let rows = match made.call {
            Call::Show(side) => self.shown(side, made).map(|()| 0),
            _ => self.answered(made),
        }?;
        self.to_bus.held_to(&made.after.to_bus, made.stores.0)?;
        self.to_loop.held_to(&made.after.to_loop, made.stores.1)?;
        let sound = self.to_bus.is_sound() && self.to_loop.is_sound();
        law(sound || !self.sound, "a request shows, and nothing waits")?;
        let (loop_side, bus_side) = (&made.after.loop_side, &made.after.bus_side);
        let roles = (loop_side.listener, loop_side.address, bus_side.listener);
        let due = (self.listens, self.address, self.bus_listens);
        law(roles == due, "listeners and address: not so by history")?;
        Ok(rows)
    }
}

impl<L: Left> History<L> {
    /// What was there when the mailbox was created for this bus address.
    fn reset(&mut self) {
        self.to_bus.clear();
        self.to_loop.clear();
        self.address = UNASSIGNED;
        self.listens = false;
        self.sending = None;
        self.held = None;
        self.bus_listens = false;
        self.serial_poll = false;
        self.sound = true;
    }

    fn shown(&self, side: u32, made: &Made<TheMailbox>) -> Law {
        match side {
            0 => self.to_bus.shown(made.answer, made.stores.0),
            1 => self.to_loop.shown(made.answer, made.stores.1),
            _ => law(made.answer == 0, "there is no such side"),
        }
    }

    /// The refusal that a call must get in a state that fits.
    fn refusal(&self, call: Call, (to_bus, to_loop): Stores<TheMailbox>) -> Option<u64> {
        match call {
            Call::Frame(2048..) => Some(3),
            Call::Command(128..) => Some(13),
            Call::Frame(0..=1023) if self.listens && self.to_bus.waits() == to_bus.len() => Some(4),
            Call::Byte(..) if self.bus_listens && self.to_loop.waits() == to_loop.len() => Some(4),
            _ => None,
        }
    }

    /// Goes on with a call and its answer.
    fn answered(&mut self, made: &Made<TheMailbox>) -> Rows {
        let (kind, value) = (kind(made.answer), value(made.answer) as u16);
        law(made.answer >> 24 == 0, "reserved bits are 0")?;
        if let Some(number) = self.refusal(made.call, made.stores) {
            law(
                made.answer == REFUSED << 16 | number,
                "another refusal is due",
            )?;
            return Ok(0);
        }
        match (made.call, kind) {
            (Call::Frame(frame), FRAME) => self.frame(frame as u16, value),
            (Call::Command(command), DONE) => Ok(self.command(command as u8)),
            (Call::Byte(byte, end), DONE) => Ok(self.byte(byte, end != 0)),
            (Call::Fetch, BYTE) => self.fetched(value),
            (Call::Fetch, NONE) => Ok(0),
            (Call::Clear, DONE) => {
                self.bus_listens = false;
                self.serial_poll = false;
                Ok(0)
            }
            (Call::Lines, LINES) => {
                let srq = value & 256 != 0;
                law(srq == self.to_bus.request, "SRQ is not the request").map(|()| 0)
            }
            (Call::Reset, DONE) => {
                self.reset();
                Ok(0)
            }
            _ => Err("an answer of another kind is due".into()),
        }
    }
}
