//! The history of one run, kept whole, and demand 3 read literally against it.

use super::line_out::LineOut;
use super::promises::Promises;
use super::room;
use super::rule::{counting, frames, send, Accepted, Rule};
use super::seen::{seen, Seen};
use super::watch::counted;
use super::TheBridge;
use crate::machine::{Made, Stores, Watcher};
use model::{Bridge, Ring};

/// What a run's watcher writes down.
pub struct Run {
    /// Bytes and breaks held for the loop at the start, then all accepted, as cells, each with the rule
    /// in force when it was accepted, and those of the start with the rule in force there.
    accepted: Vec<Accepted>,
    /// How many of those the sends have read off, by the reading rule.
    read_off: usize,
    /// Data frames sent from the receive store, the service bit aside.
    sent: Vec<u16>,
    /// Bytes held for the line at the start, then all added.
    added: Vec<u8>,
    /// Line bytes taken, our own go and stop aside.
    handed_out: Vec<u8>,
    line_out: LineOut,
    promises: Promises,
}

/// What a ring holds, oldest first.
fn held<C: Copy>(ring: Ring, store: &[C]) -> Vec<C> {
    let place = |i| store[(ring.oldest + i) % store.len()];
    (0..ring.held).map(place).collect()
}

/// What counts of the cells held for the loop, oldest first.
fn unread(state: &Bridge, rx: &[u16]) -> Vec<u16> {
    held(state.receive, rx).into_iter().map(counting).collect()
}

impl Watcher<TheBridge> for Run {
    fn starting(state: &Bridge, (rx, tx): Stores<TheBridge>) -> Run {
        Run {
            accepted: Rule::of(&state.registers).accepts_all(&unread(state, rx)),
            read_off: 0,
            sent: Vec::new(),
            added: held(state.transmit, tx),
            handed_out: Vec::new(),
            line_out: LineOut::starting(state),
            promises: Promises::starting(state),
        }
    }

    /// Writes down a call. A device clear and a reset end the run that demand 3 speaks of: it is held
    /// to the demand as it was before them, and the next one starts with nothing. Neither writes a
    /// store. A register write ends no run. A break follows the byte that was accepted last, whether
    /// that is still held or not.
    fn note(&mut self, made: &Made<TheBridge>) -> Result<u32, String> {
        let (before, after) = (made.before, made.after);
        let event = seen(before, made.call, made.answer);
        let oldest = self.added.get(self.handed_out.len()).copied();
        let rows = event.rows(made, self.unread()) | self.line_out.note(made, oldest)?;
        match event {
            Seen::Accepted(byte) => {
                let rule = Rule::of(&before.registers);
                self.accepted.push(rule.accepts(byte.into()));
            }
            Seen::Break => self
                .accepted
                .last_mut()
                .into_iter()
                .for_each(Accepted::mark),
            Seen::Sent(frame) => {
                self.sent.push(frame);
                self.read();
            }
            Seen::SentNone => self.read(),
            Seen::Added(bytes, len) => self.added.extend_from_slice(&bytes[..len]),
            Seen::HandedOut(byte) => self.handed_out.push(byte),
            Seen::DeviceClear | Seen::Reset => {
                self.check(before, made.stores)?;
                self.start_again();
            }
            _ => {}
        }
        counted(event, before, after)?;
        self.promises.note(before, event, after)?;
        room::told(made.call, made.answer, self.free(made.stores))?;
        Ok(rows)
    }

    /// Demand 3, first: what went to the loop from the receive store, and then the frames of what is
    /// still held, are the frames of all there was, held at first and then accepted, each byte by its
    /// own rule. And what was taken, then what is held for the line, are the bytes added.
    fn check(&self, state: &Bridge, (rx, tx): Stores<TheBridge>) -> Result<(), String> {
        let mut read = self.sent.clone();
        read.extend(frames(&self.still_held(&unread(state, rx))?));
        if read != frames(&self.accepted) {
            return Err("frames sent and held are not those of the bytes accepted".into());
        }
        let mut line = self.handed_out.clone();
        line.extend(held(state.transmit, tx));
        if line != self.added {
            return Err("line bytes taken and held are not those added".into());
        }
        Ok(())
    }
}

impl Run {
    /// What was accepted and not read off.
    fn unread(&self) -> &[Accepted] {
        &self.accepted[self.read_off..]
    }

    /// A send reads off what the reading rule says of the bytes accepted.
    fn read(&mut self) {
        self.read_off += send(self.unread()).0;
    }

    /// The cells that are held, with the rules of as many that were accepted last.
    fn still_held(&self, cells: &[u16]) -> Result<Vec<Accepted>, String> {
        let gone = self.accepted.len().checked_sub(cells.len());
        let newest = &self.accepted[gone.ok_or("more is held than was accepted")?..];
        let both = cells.iter().zip(newest);
        Ok(both.map(|(&cell, of)| of.rule.accepts(cell)).collect())
    }

    /// Starts the next run with nothing, after this one was checked.
    fn start_again(&mut self) {
        self.accepted.clear();
        self.read_off = 0;
        self.sent.clear();
        self.added.clear();
        self.handed_out.clear();
    }

    /// What is free in the receive and in the transmit store, by what came in and what went out and
    /// not by what the block has written down.
    fn free(&self, (rx, tx): Stores<TheBridge>) -> [usize; 2] {
        [
            (rx.len() + self.read_off).saturating_sub(self.accepted.len()),
            (tx.len() + self.handed_out.len()).saturating_sub(self.added.len()),
        ]
    }
}
