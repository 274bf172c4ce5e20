//! Ready frames, and our own frames on the loop: sent, under way, come back.

use crate::frame::{same_apart_from_service, NOT_READY, READY, SENDING_DAMAGED, SENDING_OVER};
use crate::loop_side::{LoopSide, ACTIVE_DATA, ACTIVE_STATUS, ADDRESSED, DEVICE_ID, UNASSIGNED};
use crate::state::Mailbox;

/// The accessory ID.
const ACCESSORY_ID: u8 = 67;
/// The source after which nothing follows.
const ALL_SENT: u8 = DEVICE_ID.len() as u8;

impl LoopSide {
    /// A frame of ours goes out.
    fn send(&mut self, talker: u8, frame: u16, service: u16) -> u16 {
        self.talker = talker;
        self.under_way = frame;
        self.finishing = false;
        frame | service
    }

    /// A frame of ours goes out that is not status.
    fn send_from(&mut self, source: u8, frame: u16, service: u16) -> u16 {
        self.source = source;
        self.send(ACTIVE_DATA, frame, service)
    }

    /// Addressed, not active, and no frame under way. The source stays.
    pub(crate) fn stop_sending(&mut self) {
        self.talker = ADDRESSED;
        self.under_way = 0;
        self.finishing = false;
    }

    fn sending_over(&mut self) -> u16 {
        self.stop_sending();
        SENDING_OVER
    }

    /// The next byte of the device ID, of which so many are sent, or the end.
    fn send_id(&mut self, sent: u8, service: u16) -> u16 {
        match DEVICE_ID.get(usize::from(sent)) {
            Some(&byte) => self.send_from(sent + 1, u16::from(byte), service),
            None => self.sending_over(),
        }
    }

    /// 5,66: our own has come round and the held frame goes out, or another's makes us finish.
    fn not_ready_came(&mut self, service: u16) -> u16 {
        if self.holds {
            self.holds = false;
            return std::mem::take(&mut self.held) | service;
        }
        // After a status byte nothing follows anyhow.
        if self.talker == ACTIVE_DATA {
            self.finishing = true;
        }
        NOT_READY
    }
}

impl Mailbox {
    /// Takes a ready frame and gives the frame that goes out for it.
    pub(crate) fn ready(&mut self, to_loop: &[u16], data: u8, service: u16) -> u16 {
        let side = &mut self.loop_side;
        let asked = side.talker == ADDRESSED;
        match data {
            66 => side.not_ready_came(service),
            96 if asked => self.send_data(to_loop, service),
            97 if asked => self.send_status(service),
            98 if asked => side.send_id(0, service),
            99 if asked => side.send_from(ALL_SENT, u16::from(ACCESSORY_ID), service),
            128..=158 if side.address == UNASSIGNED => {
                side.address = data - 128;
                READY | u16::from(data + 1)
            }
            _ => READY | u16::from(data),
        }
    }

    /// A data frame while ours is under way is its return.
    pub(crate) fn returned(&mut self, to_loop: &[u16], frame: u16, service: u16) -> u16 {
        let side = &mut self.loop_side;
        if !same_apart_from_service(frame, side.under_way) {
            side.stop_sending();
            return SENDING_DAMAGED;
        }
        if side.talker == ACTIVE_STATUS {
            self.status_arrived();
        } else if !side.finishing {
            return match side.source {
                0 => self.send_data(to_loop, service),
                sent => side.send_id(sent, service),
            };
        }
        self.loop_side.sending_over()
    }

    /// The oldest byte that waits for the loop is fetched and sent, or the sending is over.
    fn send_data(&mut self, to_loop: &[u16], service: u16) -> u16 {
        match self.to_loop.fetch(to_loop) {
            Some(cell) => self.loop_side.send_from(0, cell.frame(), service),
            None => self.loop_side.sending_over(),
        }
    }

    /// The status byte is sent. That ends the request, and bit 0 waits for the return.
    fn send_status(&mut self, service: u16) -> u16 {
        let status = u16::from(self.to_loop.news.status());
        self.to_loop.news.request = false;
        self.to_loop.news.again = false;
        self.loop_side.send(ACTIVE_STATUS, status, service)
    }

    /// The status byte has come back unchanged: bit 0 ends if it was shown and not set again since.
    fn status_arrived(&mut self) {
        let shown = self.loop_side.under_way & 1 != 0;
        if shown && !self.to_loop.news.again {
            self.to_loop.news.available = false;
        }
    }
}
