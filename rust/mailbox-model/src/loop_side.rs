//! The HP-IL side: its fields, and what becomes of a frame by its kind.

use crate::cell::Cell;
use crate::frame::{is_data, NOT_READY, SERVICE};
use crate::poll::LoopResponse;
use crate::state::Mailbox;

/// Talker phase: not addressed to talk.
pub const IDLE: u8 = 0;
/// Talker phase: addressed, not active.
pub const ADDRESSED: u8 = 1;
/// Talker phase: active, a data frame of ours is under way, from the store or of an ID.
pub const ACTIVE_DATA: u8 = 2;
/// Talker phase: active, a status byte of ours is under way.
pub const ACTIVE_STATUS: u8 = 3;

/// The address field of a side to which no address is assigned.
pub const UNASSIGNED: u8 = 31;
/// The address to which an unassigned side answers.
pub const HOME: u8 = 15;

/// The device ID.
pub const DEVICE_ID: [u8; 10] = *b"HP82169A\r\n";

/// The state of the loop side, the way to it aside.
#[derive(Clone, Copy, Debug, PartialEq, Eq, Hash)]
pub struct LoopSide {
    /// 0 to 30, or 31 for unassigned.
    pub address: u8,
    /// Talker phase, 0 to 3.
    pub talker: u8,
    pub listener: bool,
    /// Our data frame under way; 0 when there is none.
    pub under_way: u16,
    /// Where the last frame was from that is not status: 0 the store, n the device ID of which n
    /// bytes are sent. 10 is also the accessory ID, after which nothing follows either.
    pub source: u8,
    /// Whether sending ends after the frame under way.
    pub finishing: bool,
    /// Whether not ready is enabled.
    pub not_ready: bool,
    /// Whether we hold a data frame back.
    pub holds: bool,
    /// That frame, with the service bit that it came with; 0 when there is none.
    pub held: u16,
    pub poll: LoopResponse,
}

impl LoopSide {
    pub(crate) const START: LoopSide = LoopSide {
        address: UNASSIGNED,
        talker: IDLE,
        listener: false,
        under_way: 0,
        source: 0,
        finishing: false,
        not_ready: false,
        holds: false,
        held: 0,
        poll: LoopResponse::OFF,
    };

    pub(crate) fn fits(&self) -> bool {
        self.address <= UNASSIGNED
            && self.talker <= ACTIVE_STATUS
            && is_data(self.under_way)
            && usize::from(self.source) <= DEVICE_ID.len()
            && is_data(self.held)
            && self.poll.fits()
            && !(self.talker != IDLE && self.listener)
    }

    pub(crate) fn is_active(&self) -> bool {
        self.talker >= ACTIVE_DATA
    }
}

impl Mailbox {
    /// Whether a listener is offered data for which there is no room.
    pub(crate) fn loop_is_busy(&self, frame: u16) -> bool {
        self.loop_side.listener && is_data(frame) && self.to_bus.ring.room() == 0
    }

    /// Does what the frame asks, and gives the one frame that goes out for it.
    pub(crate) fn taken(&mut self, to_bus: &mut [u16], to_loop: &[u16], frame: u16) -> u16 {
        let data = (frame & 255) as u8;
        let requested = self.to_loop.news.request;
        // What showed before the call counts, also where the call ends the request.
        let service = if requested { SERVICE } else { 0 };
        match frame >> 8 {
            4 => {
                self.command(data);
                frame
            }
            5 => self.ready(to_loop, data, service),
            6 | 7 => frame | service | self.loop_side.poll.bits(requested),
            _ if self.loop_side.is_active() => self.returned(to_loop, frame, service),
            _ => self.heard(to_bus, frame, service),
        }
    }

    /// Another talker's data frame: a listener stores it, and it goes on or is held back.
    fn heard(&mut self, to_bus: &mut [u16], frame: u16, service: u16) -> u16 {
        if !self.loop_side.listener {
            return frame | service;
        }
        self.to_bus.leave(to_bus, Cell::of_frame(frame));
        let side = &mut self.loop_side;
        if side.not_ready && !side.holds && self.to_bus.ring.room() == 1 {
            side.holds = true;
            side.held = frame;
            return NOT_READY;
        }
        frame | service
    }
}
