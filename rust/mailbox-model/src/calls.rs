//! The calls, each with its refusals in their order.

use crate::answer::{Answer, Part};
use crate::cell::Cell;
use crate::frame::LARGEST_FRAME;
use crate::state::Mailbox;

/// The state or a block does not fit.
const MISFIT: Answer = Answer::Refused(2);
/// No room for what a listener is offered.
const BUSY: Answer = Answer::Refused(4);

impl Mailbox {
    /// Creates a mailbox for these stores, which it does not write; `Err` is refusal 1.
    pub fn create(to_bus: &[u16], to_loop: &[u16], bus_address: u32) -> Result<Mailbox, Answer> {
        if !Mailbox::creatable(to_bus, to_loop, bus_address) {
            return Err(Answer::Refused(1));
        }
        let address = bus_address as u8;
        Ok(Mailbox::start(to_bus.len(), to_loop.len(), address))
    }

    /// Gives what create gives for the same sizes and bus address.
    pub fn reset(&mut self, to_bus: &[u16], to_loop: &[u16]) -> Answer {
        if !self.fits(to_bus, to_loop) {
            return MISFIT;
        }
        *self = Mailbox::start(to_bus.len(), to_loop.len(), self.bus_side.address);
        Answer::Done
    }

    /// Takes a loop frame; each that is taken gives one frame out.
    pub fn loop_frame(&mut self, to_bus: &mut [u16], to_loop: &[u16], frame: u32) -> Answer {
        if !self.fits(to_bus, to_loop) {
            return MISFIT;
        }
        if frame > LARGEST_FRAME {
            return Answer::Refused(3);
        }
        let frame = frame as u16;
        if self.loop_is_busy(frame) {
            return BUSY;
        }
        Answer::Frame(self.taken(to_bus, to_loop, frame))
    }

    /// Takes a command byte of the bus.
    pub fn bus_command(&mut self, to_bus: &[u16], to_loop: &[u16], command: u32) -> Answer {
        if !self.fits(to_bus, to_loop) {
            return MISFIT;
        }
        if command > 127 {
            return Answer::Refused(13);
        }
        self.ordered(command as u8);
        Answer::Done
    }

    /// Takes a data byte of the bus, with or without its end mark. Unless we are listener it is not
    /// kept, and the answer is the same.
    pub fn bus_byte(
        &mut self,
        to_bus: &[u16],
        to_loop: &mut [u16],
        byte: u8,
        mark: bool,
    ) -> Answer {
        if !self.fits(to_bus, to_loop) {
            return MISFIT;
        }
        if self.bus_is_busy() {
            return BUSY;
        }
        if self.bus_side.listener {
            self.to_loop.leave(to_loop, Cell { byte, mark });
        }
        Answer::Done
    }

    /// Gives the bus its next byte, or none.
    pub fn bus_fetch(&mut self, to_bus: &[u16], to_loop: &[u16]) -> Answer {
        if !self.fits(to_bus, to_loop) {
            return MISFIT;
        }
        match self.handed_over(to_bus) {
            Some(cell) => Answer::Byte {
                byte: cell.byte,
                end: cell.mark,
            },
            None => Answer::None,
        }
    }

    /// Takes an interface clear of the bus.
    pub fn bus_clear(&mut self, to_bus: &[u16], to_loop: &[u16]) -> Answer {
        if !self.fits(to_bus, to_loop) {
            return MISFIT;
        }
        self.bus_side.clear();
        Answer::Done
    }

    /// Shows the bus lines, and changes nothing.
    pub fn bus_lines(&self, to_bus: &[u16], to_loop: &[u16]) -> Answer {
        if !self.fits(to_bus, to_loop) {
            return MISFIT;
        }
        let srq = self.to_bus.news.request;
        Answer::Lines {
            srq,
            poll: self.bus_side.poll.lines(srq),
        }
    }

    /// Shows what waits: side 0 is the way to the bus, side 1 the way to the loop. The part is
    /// empty if nothing waits, the state misfits or the side is neither.
    pub fn show(&self, to_bus: &[u16], to_loop: &[u16], side: u32) -> Part {
        match side {
            _ if !self.fits(to_bus, to_loop) => Part::EMPTY,
            0 => self.to_bus.ring.run(),
            1 => self.to_loop.ring.run(),
            _ => Part::EMPTY,
        }
    }
}
