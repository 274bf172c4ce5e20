//! The state that the caller keeps, how it starts, and when it fits the stores.

use crate::bus_side::BusSide;
use crate::loop_side::LoopSide;
use crate::ring::Ring;
use crate::way::Way;

/// A mailbox by value. All fields are open, so that a test can make any state.
#[derive(Clone, Copy, Debug, PartialEq, Eq, Hash)]
pub struct Mailbox {
    /// What the loop leaves for the bus.
    pub to_bus: Way,
    /// What the bus leaves for the loop.
    pub to_loop: Way,
    pub loop_side: LoopSide,
    pub bus_side: BusSide,
}

/// Whether a device on the bus may have this address.
pub(crate) fn bus_address_obeyed(address: u32) -> bool {
    address <= 30
}

impl Mailbox {
    /// What create and reset give.
    pub(crate) fn start(to_bus: usize, to_loop: usize, bus_address: u8) -> Mailbox {
        Mailbox {
            to_bus: Way::empty(to_bus),
            to_loop: Way::empty(to_loop),
            loop_side: LoopSide::START,
            bus_side: BusSide::start(bus_address),
        }
    }

    /// Recorded lengths are those of the stores, sizes are obeyed, every field is in its range, and
    /// neither side is talker and listener at once. Whether calls reach the state does not count.
    pub fn fits(&self, to_bus: &[u16], to_loop: &[u16]) -> bool {
        self.to_bus.ring.fits(to_bus)
            && self.to_loop.ring.fits(to_loop)
            && self.loop_side.fits()
            && self.bus_side.fits()
    }

    /// Whether create takes these sizes and this bus address.
    pub(crate) fn creatable(to_bus: &[u16], to_loop: &[u16], bus_address: u32) -> bool {
        Ring::size_obeyed(to_bus.len())
            && Ring::size_obeyed(to_loop.len())
            && bus_address_obeyed(bus_address)
    }
}
