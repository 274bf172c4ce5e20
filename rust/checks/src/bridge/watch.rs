//! A watcher that goes along every path of an exploration, small enough to be part of its states.

use super::call::Call;
use super::line_out::LineOut;
use super::promises::Promises;
use super::room;
use super::rule::{self, Accepted, Rule};
use super::seen::{seen, Seen};
use super::TheBridge;
use crate::few::Few;
use crate::machine::{Cell, Made, Stores, Watcher};
use crate::part;
use model::{Bridge, Ring};

/// What is known of a run from its calls and answers.
#[derive(Clone, Copy, Debug, PartialEq, Eq, Hash)]
pub struct Watch {
    /// Accepted from the line and not read off by the reading rule, with marks where breaks came.
    unread: Few<Accepted>,
    /// Added by frames and not taken.
    waiting: Few<u8>,
    line_out: LineOut,
    promises: Promises,
}

impl Watcher<TheBridge> for Watch {
    /// After create: both stores are empty.
    fn starting(bridge: &Bridge, _: Stores<TheBridge>) -> Watch {
        Watch {
            unread: Few::default(),
            waiting: Few::default(),
            line_out: LineOut::starting(bridge),
            promises: Promises::starting(bridge),
        }
    }

    fn note(&mut self, made: &Made<TheBridge>) -> Result<u32, String> {
        let event = seen(made.before, made.call, made.answer);
        let oldest = self.waiting.cells().first().copied();
        let rows = event.rows(made, self.unread.cells()) | self.line_out.note(made, oldest)?;
        self.held_to(made.before, event, made.after, made.stores)?;
        self.shown(made.call, made.answer, made.stores)?;
        let (rx, tx) = made.stores;
        let held = [self.unread.cells().len(), self.waiting.cells().len()];
        let free = [rx.len() - held[0], tx.len() - held[1]];
        room::told(made.call, made.answer, free)?;
        Ok(rows)
    }
}

impl Watch {
    /// Holds the state after a call to demand 3. A frame sent must be the first that the rule gives
    /// for what is unread, each byte read by the rule in force when it was accepted, and what is left
    /// unread must be what is held: so frames sent, then those of the bytes held, are those of all
    /// bytes accepted, whatever registers are written in between.
    fn held_to(
        &mut self,
        before: &Bridge,
        seen: Seen,
        after: &Bridge,
        stores: Stores<TheBridge>,
    ) -> Result<(), String> {
        let read = rule::send(self.unread.cells());
        let in_force = Rule::of(&before.registers);
        match (seen, read) {
            (Seen::Accepted(byte), _) => self.unread.push(in_force.accepts(byte.into())),
            (Seen::Break, _) => self.unread.last_mut().into_iter().for_each(Accepted::mark),
            (Seen::Sent(frame), (gone, Some(first))) if frame == first => self.unread.remove(gone),
            (Seen::SentNone, (gone, None)) => self.unread.remove(gone),
            (Seen::Sent(_) | Seen::SentNone, _) => return Err("another frame is due".into()),
            (Seen::Added(bytes, len), _) => bytes[..len].iter().for_each(|&b| self.waiting.push(b)),
            (Seen::HandedOut(byte), _) if self.waiting.cells().first() == Some(&byte) => {
                self.waiting.remove(1)
            }
            (Seen::HandedOut(_), _) => return Err("another line byte is due".into()),
            (Seen::DeviceClear | Seen::Reset, _) => {
                self.unread = Few::default();
                self.waiting = Few::default();
            }
            _ => {}
        }
        holds(after.receive, stores.0, self.unread_cells().cells())?;
        holds(after.transmit, stores.1, self.waiting.cells())?;
        counted(seen, before, after)?;
        self.promises.note(before, seen, after)
    }

    /// What is unread, as it stands in the store.
    fn unread_cells(&self) -> Few<u16> {
        self.unread.map(|accepted| accepted.cell)
    }

    /// Holds a part that is shown, given as start and length, to what the store holds.
    fn shown(&self, call: Call, part: u64, (rx, tx): Stores<TheBridge>) -> Result<(), String> {
        match call {
            Call::ShowReceive => part_due(part, rx, self.unread_cells().cells()),
            Call::ShowTransmit => part_due(part, tx, self.waiting.cells()),
            _ => Ok(()),
        }
    }
}

/// Holds a shown part of a store to the cells that it holds.
fn part_due<C: Cell>(part: u64, store: &[C], held: &[C]) -> Result<(), String> {
    part::due(part, store.len(), held.len(), |place, index| {
        store[place] == held[index]
    })
}

/// Whether a ring holds exactly these cells, with nothing above the mark: the stores start blank.
fn holds<C: Cell>(ring: Ring, store: &[C], cells: &[C]) -> Result<(), String> {
    let place = |i| store[(ring.oldest + i) % store.len()];
    if ring.held == cells.len() && (0..ring.held).all(|i| place(i) == cells[i]) {
        Ok(())
    } else {
        Err(format!("by history {cells:?} is held"))
    }
}

/// Whether the three counts moved by what was seen, and by nothing else.
pub fn counted(seen: Seen, before: &Bridge, after: &Bridge) -> Result<(), String> {
    let from = match seen {
        Seen::Reset => [0; 3],
        _ => [before.stored, before.lost, before.sent],
    };
    let happened = [
        matches!(seen, Seen::Accepted(_)),
        seen == Seen::Lost,
        matches!(seen, Seen::Sent(_)),
    ];
    let due = [0, 1, 2].map(|i: usize| from[i].wrapping_add(u32::from(happened[i])));
    if due == [after.stored, after.lost, after.sent] {
        Ok(())
    } else {
        Err(format!("stored, lost, sent: {due:?} are due"))
    }
}
