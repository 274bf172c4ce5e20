//! What calls of the bus tell.

use super::rows::*;
use super::{law, History, Left, Rows};

impl<L: Left> History<L> {
    /// A command of the bus.
    pub(super) fn command(&mut self, command: u8) -> u32 {
        let clears = command == 20 || command == 4 && self.bus_listens;
        match command {
            63 => self.bus_listens = false,
            24 | 25 => self.serial_poll = command == 24,
            32..=62 => self.bus_listens |= command - 32 == self.bus_address,
            64..=94 => self.bus_listens &= command - 64 != self.bus_address,
            _ => {}
        }
        if clears {
            self.to_loop.clear();
        }
        TO_LOOP_CLEARED * u32::from(clears)
    }

    /// A byte of the bus that is not refused.
    pub(super) fn byte(&mut self, byte: u8, end: bool) -> u32 {
        if !self.bus_listens {
            return NOT_KEPT;
        }
        self.to_loop.leave(u16::from(byte) | u16::from(end) << 8);
        LEFT_BY_BUS
    }

    /// A byte is handed over to the bus.
    pub(super) fn fetched(&mut self, value: u16) -> Rows {
        if self.serial_poll {
            law(value == self.to_bus.status(), "the status byte is due")?;
            self.to_bus.status_read();
            return Ok(STATUS_READ);
        }
        law(value < 512, "a byte and its mark have nine bits")?;
        self.to_bus.fetch(value).map(|()| FETCHED_BY_BUS)
    }
}
