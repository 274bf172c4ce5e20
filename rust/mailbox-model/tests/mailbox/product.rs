//! Stores, calls, refusals, and what create and reset give.

use crate::world::{byte, end, f, lines, World, BUS, UNTOUCHED};
use raftershim_mailbox_model::{Answer, Mailbox, Part, LARGEST};
use Answer::{Done, Refused};

#[test]
fn a_cell_is_the_byte_and_bit_8_the_mark() {
    let mut w = World::<2, 2>::new().left_by_loop(&[50]);
    w.frame(2, 53);
    assert_eq!(w.to_bus, [50, 256 + 53]);
    w.orders(&[32 + BUS]);
    w.byte(255, true);
    assert_eq!(w.to_loop, [511, UNTOUCHED]);
}

#[test]
fn bits_above_the_mark_do_not_count_when_read() {
    let mut w = World::<2, 1>::new().left_by_loop(&[50, 51]);
    w.to_bus = [0xFE00 + 50, 0xFF00 + 51];
    w.orders(&[64 + BUS]);
    assert_eq!(w.fetch(), byte(50));
    assert_eq!(w.fetch(), end(51));
    let mut w = World::<1, 1>::new().left_by_bus(&[50]);
    w.to_loop[0] |= 0xFF00;
    w.commands(&[79]);
    assert_eq!(w.frame(5, 96), f(3, 50));
}

#[test]
fn every_call_answers() {
    let mut w = World::<2, 2>::new();
    assert_eq!(w.command(32 + u32::from(BUS)), Done);
    assert_eq!(w.byte(50, true), Done);
    assert_eq!(w.frame(6, 0), f(7, 0));
    assert_eq!(w.lines(), lines(false, 0));
    assert_eq!(w.fetch(), Answer::None);
    assert_eq!(w.bus_clear(), Done);
    assert_eq!(
        w.show(1),
        Part {
            start: 0,
            length: 1
        }
    );
    assert_eq!(w.reset(), Done);
    assert_eq!(w, World::new().with_cell_to_loop(256 + 50));
}

impl<const B: usize, const L: usize> World<B, L> {
    fn with_cell_to_loop(mut self, cell: u16) -> Self {
        self.to_loop[0] = cell;
        self
    }
}

#[test]
fn refusal_1_is_a_size_or_the_bus_address() {
    let store = vec![0; LARGEST + 1];
    let create = |to_bus: usize, to_loop: usize, address| {
        Mailbox::create(&store[..to_bus], &store[..to_loop], address).err()
    };
    for (to_bus, to_loop, address) in [(1, 1, 0), (LARGEST, LARGEST, 30)] {
        assert_eq!(create(to_bus, to_loop, address), None);
    }
    for (to_bus, to_loop, address) in [
        (0, 1, 0),
        (1, 0, 0),
        (LARGEST + 1, 1, 0),
        (1, LARGEST + 1, 0),
        (1, 1, 31),
        (1, 1, 256),
    ] {
        assert_eq!(create(to_bus, to_loop, address), Some(Refused(1)));
    }
}

#[test]
fn refusals_come_in_their_order_and_change_nothing() {
    let full = World::<1, 1>::new().left_by_loop(&[1]).left_by_bus(&[2]);
    let mut w = full;
    assert_eq!(w.whole_frame(2048), Refused(3));
    assert_eq!(w.whole_frame(u32::MAX), Refused(3));
    assert_eq!(w.whole_frame((1 << 16) + 50), Refused(3));
    assert_eq!(w.command(128), Refused(13));
    assert_eq!(w.command(u32::MAX), Refused(13));
    assert_eq!(w.frame(0, 50), Refused(4));
    assert_eq!(w.frame(3, 50), Refused(4));
    assert_eq!(w.byte(50, false), Refused(4));
    assert_eq!(w, full);
    w.mailbox.bus_side.address = 31;
    let misfit = w;
    assert_eq!(w.whole_frame(2048), Refused(2));
    assert_eq!(w.command(128), Refused(2));
    assert_eq!(w.frame(0, 50), Refused(2));
    assert_eq!(w.byte(50, false), Refused(2));
    assert_eq!(w, misfit);
}

#[test]
fn the_largest_frame_and_command_are_taken() {
    let mut w = World::<1, 1>::new();
    assert_eq!(w.whole_frame(2047), f(7, 255));
    assert_eq!(w.command(127), Done);
}

#[test]
fn showing_gives_the_longest_run_from_the_oldest() {
    let mut w = World::<3, 1>::new().left_by_loop(&[1, 2, 3]);
    w.orders(&[64 + BUS]);
    assert_eq!(w.fetch(), byte(1));
    assert_eq!(w.fetch(), byte(2));
    assert_eq!(w.frame(0, 4), f(0, 4));
    let (start, length) = (2, 1);
    assert_eq!(w.show(0), Part { start, length });
    assert_eq!(w.for_bus(), [3, 4]);
    assert_eq!(w.show(1), Part::EMPTY);
    assert_eq!(w.show(2), Part::EMPTY);
    w.to_bus[2] |= 0xFE00;
    assert_eq!(w.show(0), Part { start, length });
    w.mailbox.to_loop.ring.held = 2;
    assert_eq!(w.show(0), Part::EMPTY);
}

#[test]
fn an_emptied_way_keeps_its_place_and_a_cleared_one_starts_at_place_0() {
    let mut w = World::<3, 1>::new().left_by_loop(&[1]);
    w.orders(&[64 + BUS]);
    assert_eq!(w.fetch(), byte(1));
    assert_eq!(w.show(0), Part::EMPTY);
    let mut kept = w.left_by_loop(&[2]);
    assert_eq!(kept.to_bus, [1, 2, UNTOUCHED]);
    kept.commands(&[20]);
    assert_eq!(kept.left_by_loop(&[3]).to_bus, [3, 2, UNTOUCHED]);
}

#[test]
fn reset_gives_what_create_gives_and_writes_no_store() {
    let mut w = World::<2, 2>::new().left_by_loop(&[1]).left_by_bus(&[2, 3]);
    w.commands(&[137, 15]);
    w.orders(&[5, 99, 24]);
    let before = w;
    assert_eq!(w.reset(), Done);
    assert_eq!(w.mailbox, World::<2, 2>::new().mailbox);
    assert_eq!((w.to_bus, w.to_loop), (before.to_bus, before.to_loop));
}
