//! The status byte, and when a service request begins.

use crate::block::*;
use crate::ring::{RECEIVE, TRANSMIT};
use crate::BIT_3;

/// The conditions of the status byte; bit 6 is left 0.
#[inline(always)]
pub fn conditions(block: &Block) -> u8 {
    u8::from(TRANSMIT.held(block) == 0)
        | u8::from(!TRANSMIT.is_full(block)) << 1
        | u8::from(RECEIVE.held(block) != 0) << 2
        | u8::from(RECEIVE.is_full(block)) << 3
        | block[BREAK_SEEN] << 4
        | block[OVERRUN_SEEN] << 5
        | block[KEY_SEEN] << 7
}

/// The conditions that a request can begin by.
#[inline(always)]
fn enabled(block: &Block) -> u8 {
    let (overrun, both) = (block[R00] & 1, block[R02]);
    block[R01] | (both & 1) << 4 | overrun << 5 | (both & 4) << 5
}

/// 1 if a request shows, else 0.
#[inline(always)]
pub fn shows(block: &Block) -> u8 {
    block[REQUEST] & (block[R00] / BIT_3)
}

/// What was enabled and holding before a call.
pub struct Watch {
    before: u8,
}

impl Watch {
    /// Before a call that changes no register: nothing is looked at if nothing is enabled.
    #[inline(always)]
    pub fn enabled(block: &Block) -> Watch {
        match enabled(block) {
            0 => Watch { before: 0 },
            _ => Watch::every_condition(block),
        }
    }

    /// Before a call that may change what is enabled.
    #[inline(always)]
    pub fn every_condition(block: &Block) -> Watch {
        let before = conditions(block) & enabled(block);
        Watch { before }
    }

    /// After the call: begins a request if something is enabled and holding that was not so before.
    #[inline(always)]
    pub fn settle(self, block: &mut Block) {
        let enabled = enabled(block);
        if enabled != 0 && conditions(block) & enabled & !self.before != 0 {
            block[REQUEST] = 1;
        }
    }
}
