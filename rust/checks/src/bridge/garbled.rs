//! A bridge whose receive store gets other bits above the marks before every call. They do not count,
//! so it answers as the one within it, and what it writes has none of them.

use super::call::Call;
use super::rule::counting;
use super::{Lent, TheBridge, ARCHIVE, PEER};
use crate::implementation::Implementation;

/// One that is within.
pub trait Within {
    const WITHIN: Implementation<TheBridge>;
}

/// The archive's C functions.
pub struct Archive;

impl Within for Archive {
    const WITHIN: Implementation<TheBridge> = ARCHIVE;
}

/// The peer.
pub struct Peer;

impl Within for Peer {
    const WITHIN: Implementation<TheBridge> = PEER;
}

/// This one with the bits above its marks garbled before every call.
pub const fn garbled<W: Within>() -> Implementation<TheBridge> {
    Implementation {
        name: "garbled",
        create: create::<W>,
        call: call::<W>,
    }
}

/// What counts of a cell, under bits by its place, of which at least one is set.
fn spoilt(place: usize, cell: u16) -> u16 {
    let bits = (place as u16).wrapping_mul(0x9e37) | 1 << 9;
    counting(cell) | bits & !counting(u16::MAX)
}

fn create<W: Within>(lent: Lent, margin: u32) -> u64 {
    around(lent, |lent| (W::WITHIN.create)(lent, margin))
}

fn call<W: Within>(lent: Lent, call: Call) -> u64 {
    around(lent, |lent| (W::WITHIN.call)(lent, call))
}

/// Spoils every cell, makes a call, and gives each cell that was not written what it had. A cell that
/// was written has no bit above its mark, so it is no spoilt one.
fn around(mut lent: Lent, make: impl FnOnce(Lent) -> u64) -> u64 {
    let before = lent.one.to_vec();
    for (place, cell) in lent.one.iter_mut().enumerate() {
        *cell = spoilt(place, *cell);
    }
    let answer = make(lent.again());
    for (place, (cell, before)) in lent.one.iter_mut().zip(before).enumerate() {
        if *cell == spoilt(place, before) {
            *cell = before;
        }
    }
    answer
}
