//! What commands of the loop do. They all go on unchanged.

use crate::loop_side::{LoopSide, ADDRESSED, HOME, IDLE, UNASSIGNED};
use crate::poll::LoopResponse;
use crate::state::Mailbox;

impl LoopSide {
    /// The address to which we answer, at most 30.
    fn own_address(&self) -> u8 {
        if self.address == UNASSIGNED {
            HOME
        } else {
            self.address
        }
    }

    /// 31 ends listening, our address begins it and ends talking, another does nothing.
    fn listen_address(&mut self, n: u8) {
        if n == 31 {
            self.listener = false;
        } else if n == self.own_address() {
            self.listener = true;
            self.talker = IDLE;
        }
    }

    /// Our address begins talking and ends listening, any other ends talking.
    fn talk_address(&mut self, n: u8) {
        if n == self.own_address() {
            self.talker = ADDRESSED;
            self.listener = false;
        } else {
            self.talker = IDLE;
        }
    }

    /// What every command does first, whatever it is.
    fn interrupted_by(&mut self, command: u8) {
        if self.is_active() {
            self.stop_sending();
        }
        // The byte of the held frame is stored already and stays.
        self.holds = false;
        self.held = 0;
        self.not_ready = command == 15 && self.listener;
    }
}

impl Mailbox {
    pub(crate) fn command(&mut self, command: u8) {
        let side = &mut self.loop_side;
        side.interrupted_by(command);
        match command {
            32..=63 => side.listen_address(command - 32),
            64..=95 => side.talk_address(command - 64),
            // Clears: what the loop itself has left, and nothing else.
            20 => self.to_bus.clear(),
            4 if side.listener => self.to_bus.clear(),
            // Parallel poll.
            128..=143 if side.listener => side.poll = LoopResponse::of_code(command - 128),
            5 if side.listener => side.poll = LoopResponse::OFF,
            21 => side.poll = LoopResponse::OFF,
            144 => {
                side.talker = IDLE;
                side.listener = false;
            }
            154 => side.address = UNASSIGNED,
            _ => {}
        }
    }
}
