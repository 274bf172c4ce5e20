//! The two stores of the mailbox.

use crate::store::{frame_of, framed_item, is_blank, oldest_of, Offer, Removal, Store, MARK};
use mailbox_model::boundary::BYTE;
use mailbox_model::{Mailbox, SERVICE};
use model::Ring;
use raftershim_checks::answer::{framed, DONE, NONE};
use raftershim_checks::machine::{Machine, Stores};
use raftershim_checks::mailbox::call::{frame, Call};
use raftershim_checks::mailbox::{Lent, TheMailbox};

/// The address on the bus.
const BUS: u32 = 7;
/// Each item is a cell, with the end mark or without.
const LOTS: &[&[u16]] = &[&[65], &[66 | MARK], &[67, 68 | MARK]];
const REMOVALS: &[Removal] = &[(1, Some(false)), (1, Some(true))];

/// The store that the loop fills for the bus.
pub struct ToBus;

/// The store that the bus fills for the loop.
pub struct ToLoop;

fn ring_of(ring: mailbox_model::Ring) -> Ring {
    Ring {
        oldest: ring.oldest,
        held: ring.held,
    }
}

impl Store for ToBus {
    type Of = TheMailbox;
    type Cell = u16;
    const SIDE: usize = 0;
    const LEAST: usize = 1;
    const OTHER: usize = 1;
    const NUMBER: u32 = BUS;
    /// Listen on the loop, and talk on the bus.
    const READY: &'static [Call] = &[frame(4, 47), Call::Command(64 + BUS)];
    const SHOW: Call = Call::Show(0);
    const LOTS: &'static [&'static [u16]] = LOTS;
    const REMOVALS: &'static [Removal] = REMOVALS;

    fn of((to_bus, to_loop): Stores<'_, TheMailbox>) -> (&[u16], bool) {
        (to_bus, is_blank(to_loop))
    }

    fn lent<'a>(lent: &'a mut Lent) -> &'a mut [u16] {
        lent.one
    }

    fn ring(state: &Mailbox) -> Ring {
        ring_of(state.to_bus.ring)
    }

    fn oldest(state: &mut Mailbox) -> &mut usize {
        &mut state.to_bus.ring.oldest
    }

    fn offer(_: &Mailbox, item: u16) -> Offer<ToBus> {
        Offer {
            call: Call::Frame(frame_of(item)),
            cells: vec![item],
            answer: framed_item(item),
            mark: None,
        }
    }

    fn take(_: &Mailbox) -> Call {
        Call::Fetch
    }

    fn due(_: &Mailbox, waiting: &[u16]) -> (usize, Option<u16>) {
        oldest_of(waiting)
    }

    fn handed_out(item: Option<u16>) -> u64 {
        item.map_or(NONE, |item| BYTE << 16 | u64::from(item))
    }
}

impl Store for ToLoop {
    type Of = TheMailbox;
    type Cell = u16;
    const SIDE: usize = 1;
    const LEAST: usize = 1;
    const OTHER: usize = 1;
    const NUMBER: u32 = BUS;
    /// Talk on the loop, and listen on the bus.
    const READY: &'static [Call] = &[frame(4, 79), Call::Command(32 + BUS)];
    const SHOW: Call = Call::Show(1);
    const LOTS: &'static [&'static [u16]] = LOTS;
    const REMOVALS: &'static [Removal] = REMOVALS;

    fn of((to_bus, to_loop): Stores<'_, TheMailbox>) -> (&[u16], bool) {
        (to_loop, is_blank(to_bus))
    }

    fn lent<'a>(lent: &'a mut Lent) -> &'a mut [u16] {
        lent.other
    }

    fn ring(state: &Mailbox) -> Ring {
        ring_of(state.to_loop.ring)
    }

    fn oldest(state: &mut Mailbox) -> &mut usize {
        &mut state.to_loop.ring.oldest
    }

    fn offer(_: &Mailbox, item: u16) -> Offer<ToLoop> {
        Offer {
            call: Call::Byte((item & 255) as u8, u32::from(item & MARK)),
            cells: vec![item],
            answer: DONE,
            mark: None,
        }
    }

    /// The frame under way comes back, or data is asked for.
    fn take(state: &Mailbox) -> Call {
        TheMailbox::back(state, 0).unwrap_or(frame(5, 96))
    }

    fn due(_: &Mailbox, waiting: &[u16]) -> (usize, Option<u16>) {
        oldest_of(waiting)
    }

    /// Status is never asked for, so the request that something waits shows in every frame.
    fn handed_out(item: Option<u16>) -> u64 {
        let requesting = |item| framed_item(item) | u64::from(SERVICE);
        item.map_or(framed(5, 64), requesting)
    }
}
