//! The HP-IB side: its fields, its commands, and what it hands over to the bus.

use crate::cell::Cell;
use crate::loop_side::{ADDRESSED, IDLE};
use crate::news::News;
use crate::poll::BusResponse;
use crate::state::{bus_address_obeyed, Mailbox};

/// The state of the bus side, the way to it aside.
#[derive(Clone, Copy, Debug, PartialEq, Eq, Hash)]
pub struct BusSide {
    /// 0 to 30, and never changed.
    pub address: u8,
    /// Talker phase, 0 or 1.
    pub talker: u8,
    pub listener: bool,
    pub serial_poll: bool,
    /// Whether the status byte was handed over since the last command or interface clear.
    pub status_read: bool,
    /// Whether the next command may set the poll response.
    pub configuring: bool,
    pub poll: BusResponse,
}

impl BusSide {
    pub(crate) fn start(address: u8) -> BusSide {
        BusSide {
            address,
            talker: IDLE,
            listener: false,
            serial_poll: false,
            status_read: false,
            configuring: false,
            poll: BusResponse::OFF,
        }
    }

    pub(crate) fn fits(&self) -> bool {
        bus_address_obeyed(u32::from(self.address))
            && self.poll.fits()
            && self.talker <= ADDRESSED
            && !(self.talker != IDLE && self.listener)
    }

    /// 31 ends listening, our address begins it and ends talking, another does nothing.
    fn listen_address(&mut self, n: u8) {
        if n == self.address {
            self.listener = true;
            self.talker = IDLE;
        } else if n == 31 {
            self.listener = false;
        }
    }

    /// Our address begins talking and ends listening, any other ends talking.
    fn talk_address(&mut self, n: u8) {
        self.talker = IDLE;
        if n == self.address {
            self.talker = ADDRESSED;
            self.listener = false;
        }
    }

    /// What the controller's attention does, by a command or by interface clear. It answers whether
    /// a configure was pending: unless an enable follows, that ends the poll response.
    fn attention(&mut self) -> bool {
        let pending = self.configuring;
        self.configuring = false;
        self.status_read = false;
        if pending {
            self.poll = BusResponse::OFF;
        }
        pending
    }

    /// Interface clear.
    pub(crate) fn clear(&mut self) {
        self.attention();
        self.talker = IDLE;
        self.listener = false;
        self.serial_poll = false;
    }
}

impl Mailbox {
    /// Does what a command of the bus asks, 0 to 127.
    pub(crate) fn ordered(&mut self, command: u8) {
        let side = &mut self.bus_side;
        let pending = side.attention();
        match command {
            // Clears: what the bus itself has left, and nothing else.
            20 => self.to_loop.clear(),
            4 if side.listener => self.to_loop.clear(),
            // Parallel poll.
            5 if side.listener => side.configuring = true,
            21 => side.poll = BusResponse::OFF,
            96..=111 if pending => side.poll = BusResponse::of_code(command - 96),
            // Serial poll.
            24 => side.serial_poll = true,
            25 => side.serial_poll = false,
            32..=63 => side.listen_address(command - 32),
            64..=95 => side.talk_address(command - 64),
            _ => {}
        }
    }

    /// Whether a listener is offered a byte for which there is no room.
    pub(crate) fn bus_is_busy(&self) -> bool {
        self.bus_side.listener && self.to_loop.ring.room() == 0
    }

    /// What a talker hands over: what waits, or in serial poll mode the status byte once.
    pub(crate) fn handed_over(&mut self, to_bus: &[u16]) -> Option<Cell> {
        let side = &mut self.bus_side;
        if side.talker == IDLE {
            return None;
        }
        if !side.serial_poll {
            return self.to_bus.fetch(to_bus);
        }
        if side.status_read {
            return None;
        }
        side.status_read = true;
        let byte = self.to_bus.news.status();
        self.to_bus.news = News::NONE;
        Some(Cell { byte, mark: false })
    }
}
