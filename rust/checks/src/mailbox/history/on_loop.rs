//! What a frame of the loop and the frame that goes out for it tell.

use super::rows::*;
use super::{law, From, History, Left, Rows, Sending};
use mailbox_model::{END, HOME, SERVICE, UNASSIGNED};

/// The first number that is no data frame.
const DATA_END: u16 = 4 << 8;
const SENDING_OVER: u16 = 5 << 8 | 64;
const SENDING_DAMAGED: u16 = 5 << 8 | 65;
const NOT_READY: u16 = 5 << 8 | 66;

/// A data frame as a cell.
fn cell(frame: u16) -> u16 {
    frame & 255 | (frame & END) >> 1
}

impl<L: Left> History<L> {
    /// A frame of the loop, and the one that goes out for it.
    pub(super) fn frame(&mut self, frame: u16, out: u16) -> Rows {
        let service = u16::from(self.to_loop.request) << 8;
        match frame >> 8 {
            4 => {
                law(out == frame, "a command goes on unchanged")?;
                Ok(self.loop_command((frame & 255) as u8))
            }
            5 => self.ready(frame, out, service),
            6 | 7 => {
                let kept = out & frame == frame && out & !255 == frame & !255 | service;
                law(kept, "an identify frame loses a bit or has another").map(|()| 0)
            }
            _ if self.sending.is_some() => self.returned(frame, out, service),
            _ if self.listens => self.heard(frame, out, service),
            _ => law(out == frame | service, "another's frame is changed").map(|()| 0),
        }
    }

    /// A command of the loop.
    fn loop_command(&mut self, command: u8) -> u32 {
        let own = match self.address {
            UNASSIGNED => HOME,
            address => address,
        };
        let clears = command == 20 || command == 4 && self.listens;
        let cut_off = self.sending.take().is_some();
        self.held = None;
        match command {
            63 | 144 => self.listens = false,
            154 => self.address = UNASSIGNED,
            32..=62 => self.listens |= command - 32 == own,
            64..=94 => self.listens &= command - 64 != own,
            _ => {}
        }
        if clears {
            self.to_bus.clear();
        }
        let cleared = if clears { TO_BUS_CLEARED } else { 0 };
        cleared | if cut_off { CUT_OFF } else { 0 }
    }

    /// A ready frame.
    fn ready(&mut self, frame: u16, out: u16, service: u16) -> Rows {
        if let (NOT_READY, Some(held)) = (frame, self.held) {
            self.held = None;
            return law(out == held | service, "the held frame is due").map(|()| RELEASED);
        }
        match frame & 255 {
            96 if out < DATA_END => self.sent(From::Store, out, service),
            97 if out < DATA_END => self.sent(From::Status, out, service),
            98 | 99 if out < DATA_END => self.sent(From::Id, out, service),
            96 if out == SENDING_OVER => law(self.to_loop.waits() == 0, "bytes wait").map(|()| 0),
            data @ 128..=158 if out == frame + 1 => {
                law(self.address == UNASSIGNED, "an address is taken twice")?;
                self.address = (data - 128) as u8;
                Ok(0)
            }
            _ => law(out == frame, "another ready frame passes").map(|()| 0),
        }
    }

    /// A frame of ours goes out.
    fn sent(&mut self, from: From, out: u16, service: u16) -> Rows {
        law(
            out & SERVICE == service,
            "the service bit is not the request",
        )?;
        let frame = out & !SERVICE;
        self.sending = Some(Sending { from, frame });
        match from {
            From::Store => self.to_loop.fetch(cell(out)).map(|()| FETCHED_BY_LOOP),
            From::Id => Ok(ID_SENT),
            From::Status => {
                law(frame == self.to_loop.status(), "another status byte is due")?;
                self.to_loop.status_sent();
                Ok(STATUS_SENT)
            }
        }
    }

    /// A data frame while ours is under way.
    fn returned(&mut self, frame: u16, out: u16, service: u16) -> Rows {
        let sending = match self.sending.take() {
            Some(sending) => sending,
            None => return Err("nothing is under way".into()),
        };
        if frame & !SERVICE != sending.frame {
            return law(out == SENDING_DAMAGED, "5,65 is due").map(|()| DAMAGED);
        }
        match sending.from {
            From::Status => {
                law(out == SENDING_OVER, "5,64 is due after a status byte")?;
                self.to_loop.status_back(frame & 1 != 0);
                Ok(STATUS_BACK)
            }
            _ if out == SENDING_OVER => Ok(0),
            from => {
                law(out < DATA_END, "the next frame or 5,64 is due")?;
                self.sent(from, out, service)
            }
        }
    }

    /// Another talker's data frame for a listener.
    fn heard(&mut self, frame: u16, out: u16, service: u16) -> Rows {
        self.to_bus.leave(cell(frame));
        if out == NOT_READY {
            law(self.held.is_none(), "a second frame is held back")?;
            self.held = Some(frame);
            return Ok(LEFT_BY_LOOP | HELD_BACK);
        }
        law(out == frame | service, "another's frame is changed").map(|()| LEFT_BY_LOOP)
    }
}
