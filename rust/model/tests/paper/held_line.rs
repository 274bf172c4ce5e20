//! No rule changes under a held line: writes of R10, C00 and C01 are refused with 10 while the receive
//! store holds anything.

use crate::{explore, f, frames_of_stretches, offer, Call, Found, History, World, BREAK, TALK};
use raftershim_model::Answer::{Done, Frame, Refused};
use Call::{Break, Echo, Line, Reset, Write};

/// Writes of the three registers: the values that they have at start, and others.
const RULE_WRITES: [Call; 8] = [
    Write(10, 0),
    Write(10, 4),
    Write(10, 8),
    Write(10, 12),
    Write(16, 13),
    Write(16, 59),
    Write(17, 10),
    Write(17, 59),
];

/// A write of each other register that is carried.
const OTHER_WRITES: [Call; 8] = [
    Write(0, 9),
    Write(1, 15),
    Write(2, 5),
    Write(11, 8),
    Write(18, 59),
    Write(19, 59),
    Write(20, 60),
    Write(21, 61),
];

/// A talker on a receive store of 8 that these calls were made on.
fn talker(calls: &[Call]) -> World {
    World::after(8, 3, 3, &[&TALK, calls].concat())
}

/// Each of these writes in this world is refused with this number and changes nothing.
fn refused(world: &World, writes: &[Call], number: u8) {
    for &write in writes {
        let mut next = world.clone();
        assert_eq!(next.call(write), Refused(number), "{write:?}");
        assert_eq!(&next, world, "{write:?}");
    }
}

/// Each of these writes is taken in this world.
fn taken(world: &World, writes: &[Call]) {
    for &write in writes {
        assert_eq!(world.clone().call(write), Done, "{write:?}");
    }
}

#[test]
fn the_three_registers_are_refused_while_anything_is_held() {
    let rows: [&[Call]; 7] = [
        &[Line(50)],
        &[Line(50), Break],
        // R10 bit 3 is off, and bit 2 is on.
        &[Write(10, 4), Line(50)],
        // Undecided bytes, and a pair that no send has removed yet.
        &[Write(10, 8), Line(50), Line(13)],
        &[Write(10, 8), Line(50), Line(13), offer(5, 96)],
        &[Write(10, 8), Line(13), Line(10)],
        // A frame is under way, and the next byte is held.
        &[Line(50), Line(51), offer(5, 96)],
    ];
    for calls in rows {
        let world = talker(calls);
        refused(&world, &RULE_WRITES, 10);
        taken(&world, &OTHER_WRITES);
    }
}

#[test]
fn they_are_taken_while_nothing_is_held() {
    let rows: [&[Call]; 6] = [
        &[],
        // A frame under way is not held.
        &[Line(50), offer(5, 96)],
        &[Write(10, 8), Line(13), Line(10), offer(5, 96)],
        &[Line(50), offer(4, 20)],
        &[Line(50), Reset],
        // The other store holds a byte.
        &[offer(4, 33), offer(0, 65)],
    ];
    for calls in rows {
        taken(&talker(calls), &RULE_WRITES);
    }
}

#[test]
fn what_is_refused_for_its_number_or_value_is_refused_for_that() {
    let world = talker(&[Line(50)]);
    refused(&world, &[Write(9, 0), Write(12, 99), Write(22, 0)], 5);
    refused(&world, &[Write(10, 16), Write(16, 256), Write(17, 256)], 6);
    refused(&world, &[Write(10, 1), Write(10, 10)], 7);
    refused(&world, &[Write(20, 19), Write(21, 17)], 8);
    let mut misfit = world;
    misfit.bridge.margin = 0;
    refused(&misfit, &RULE_WRITES, 2);
}

#[test]
fn half_a_reading_is_read_by_the_pair_that_it_came_under() {
    let mut world = talker(&[Write(10, 8), Line(50), Line(46)]);
    refused(&world, &[Write(16, 59), Write(17, 59)], 10);
    for byte in [53, 13, 10] {
        assert_eq!(world.call(Line(byte)), Done);
    }
    assert_eq!(world.read_out(), [50, 46, f(2, 53)]);
    for call in [Write(16, 59), Write(17, 59), Line(55), Line(59), Line(59)] {
        assert_eq!(world.call(call), Done);
    }
    assert_eq!(world.call(offer(5, 96)), Frame(f(2, 55)));
}

#[test]
fn the_frames_of_stretches_have_a_wall_between_two_rules() {
    let (on, turned, off) = ((true, [13, 10]), (true, [10, 13]), (false, [13, 10]));
    let rows: [(&[_], &[u16]); 5] = [
        (&[(on, 50), (on, 13), (on, 10)], &[f(2, 50)]),
        (&[(on, 50), (on, 13), (turned, 10)], &[50, 13]),
        (&[(on, 50), (turned, 10), (turned, 13)], &[50]),
        (&[(off, 13), (on, 10), (on, 46)], &[13, 10]),
        (&[(on, 13 | BREAK), (on, 10), (off, 46)], &[13, 10, 46]),
    ];
    for (cells, frames) in rows {
        assert_eq!(frames_of_stretches(cells), frames, "{cells:?}");
    }
}

#[test]
fn every_order_of_writes_of_the_rule() {
    let alphabet = [
        Line(13),
        Line(10),
        Break,
        offer(5, 96),
        Echo,
        Write(10, 0),
        Write(10, 8),
        Write(16, 10),
        Write(17, 13),
    ];
    let starts: [&[Call]; 2] = [&[], &[Write(10, 8), Line(50)]];
    for start in starts {
        let world = World::after(4, 3, 1, &[&TALK, start].concat());
        let mut found = Found::default();
        explore(&world, &History::starting(&world), &alphabet, 6, &mut found);
        println!("from {:?}: {found:?}", world.held());
        assert!(found.refused > 0 && found.sent > 0 && found.rules > 0);
    }
}
