//! Ask, then take: asking for the line byte that is next changes nothing, and a byte is gone when
//! it is taken by its name.

use crate::{explore, offer, Call, Found, History, World, TALK};
use raftershim_model::boundary::{self, kind, value, BYTE, DONE, NONE, REFUSED};
use raftershim_model::Answer::{Byte, Done, NoByte, Refused};
use raftershim_model::{block, Bridge};
use Call::{Ask, Line, Reset, Take, Write};

/// We are listener.
const LISTEN: [Call; 2] = [TALK[0], Call::Loop(0x421)];

/// On a receive store of 4 and a transmit store of 3, a listener that these calls were made on.
fn listener(calls: &[Call]) -> World {
    World::after(4, 3, 1, &[&LISTEN, calls].concat())
}

/// Three bytes from the line, which make a stop due.
const FILLED: [Call; 3] = [Line(50), Line(50), Line(50)];

/// Every byte is named: this one is taken, and every other is refused with 12 and changes nothing.
/// Gives the world after the take, if there is one.
fn only(world: &World, next: Option<u8>) -> Option<World> {
    let mut after = None;
    for byte in 0..=255 {
        let mut tried = world.clone();
        let answer = tried.call(Take(byte));
        if next == Some(byte) {
            assert_eq!(answer, Done);
            after = Some(tried);
        } else {
            assert_eq!((answer, &tried), (Refused(12), world), "byte {byte}");
        }
    }
    let mut asked = world.clone();
    assert_eq!(asked.call(Ask), next.map_or(NoByte, Byte));
    assert_eq!(&asked, world);
    after
}

#[test]
fn only_the_byte_that_is_next_is_taken() {
    let data = [offer(0, 65), offer(0, 66)];
    let rows: [(&[Call], Option<u8>); 9] = [
        (&[], None),
        (&data, Some(65)),
        // The other end forbids our sending, and permits it again.
        (&[data[0], data[1], Line(19)], None),
        (&[data[0], data[1], Line(19), Line(17)], Some(65)),
        // Our stop, also while our sending is forbidden.
        (&FILLED, Some(19)),
        (&[FILLED[0], FILLED[1], FILLED[2], Line(19)], Some(19)),
        // Our go, before what waits, also when the protocol is off.
        (
            &[&FILLED[..], &data, &[Take(19), offer(4, 20)]].concat(),
            Some(17),
        ),
        (
            &[&FILLED[..], &[Take(19), Write(11, 0)], &data].concat(),
            Some(17),
        ),
        // The characters that the registers have now.
        (&[&FILLED[..], &[Write(21, 83)]].concat(), Some(83)),
    ];
    for (calls, next) in rows {
        only(&listener(calls), next);
    }
}

#[test]
fn what_is_owed_is_taken_before_an_equal_byte_that_is_held() {
    let world = listener(&[&FILLED[..], &[offer(0, 19), offer(0, 65)]].concat());
    let world = only(&world, Some(19)).expect("our stop");
    assert_eq!(
        (world.waiting(), world.bridge.stop_sent_last),
        (vec![19, 65], true)
    );
    let world = only(&world, Some(19)).expect("the byte that is held");
    assert_eq!(
        (world.waiting(), world.bridge.stop_sent_last),
        (vec![65], true)
    );
    let mut world = only(&world, Some(65)).expect("the byte behind it");
    assert_eq!(world.call(Ask), NoByte);
    // The same of our go.
    assert_eq!(world.call(offer(0, 17)), crate::Frame(17));
    assert_eq!(world.call(Write(11, 0)), Done);
    let world = only(&world, Some(17)).expect("our go");
    assert_eq!(
        (world.waiting(), world.bridge.stop_sent_last),
        (vec![17], false)
    );
    let world = only(&world, Some(17)).expect("the byte that is held");
    only(&world, None);
}

#[test]
fn a_port_that_fails_loses_nothing() {
    let mut world = listener(&[offer(0, 65), offer(0, 66)]);
    let before = world.clone();
    for _ in 0..5 {
        assert_eq!(world.call(Ask), Byte(65));
    }
    assert_eq!(world, before);
    // A stop becomes due before the port works again.
    for call in FILLED {
        assert_eq!(world.call(call), Done);
    }
    assert_eq!(world.call(Take(65)), Refused(12));
    let out: Vec<Option<u8>> = (0..4).map(|_| world.goes_out()).collect();
    assert_eq!(out, [Some(19), Some(65), Some(66), None]);
}

/// What a caller must not do: other calls come between an ask and its take.
#[test]
fn a_take_that_comes_late_is_refused_and_nothing_is_recorded() {
    // The stop was sent, and holding off ended before it was taken: no go will follow.
    let mut world = listener(&FILLED);
    assert_eq!(world.call(Ask), Byte(19));
    world.call(offer(4, 20));
    assert_eq!(world.call(Take(19)), Refused(12));
    assert_eq!(world.goes_out(), None);
    // The byte was sent, and a stop became due before it was taken: it goes out again.
    let mut world = listener(&[offer(0, 65)]);
    assert_eq!(world.call(Ask), Byte(65));
    for call in FILLED {
        world.call(call);
    }
    assert_eq!(world.call(Take(65)), Refused(12));
    assert_eq!([world.goes_out(), world.goes_out()], [Some(19), Some(65)]);
    // The byte was sent, and is thrown away.
    for clear in [offer(4, 20), Reset] {
        let mut world = listener(&[offer(0, 65)]);
        assert_eq!(world.call(Ask), Byte(65));
        world.call(clear);
        assert_eq!(world.call(Take(65)), Refused(12));
    }
}

#[test]
fn a_take_settles_requests_and_an_ask_begins_none() {
    // Transmit empty and not full, each enabled while it does not hold.
    for (held, enabled) in [(1, 1), (3, 2)] {
        let mut world = listener(&vec![offer(0, 65); held]);
        world.call(Write(1, enabled));
        assert_eq!((world.call(Ask), world.bridge.request), (Byte(65), false));
        assert_eq!(
            (world.call(Take(66)), world.bridge.request),
            (Refused(12), false)
        );
        assert_eq!((world.call(Take(65)), world.bridge.request), (Done, true));
    }
}

#[test]
fn a_state_that_does_not_fit_is_refused_first() {
    let spoil: [fn(&mut Bridge); 3] = [
        |bridge| bridge.margin = 0,
        |bridge| bridge.transmit.held = 4,
        |bridge| bridge.registers.c[5] = 17,
    ];
    for spoil in spoil {
        let mut world = listener(&[offer(0, 65)]);
        spoil(&mut world.bridge);
        let before = world.clone();
        for call in [Ask, Take(65), Take(66)] {
            assert_eq!((world.call(call), &world), (Refused(2), &before));
        }
    }
}

#[test]
fn the_numbers_of_the_answers() {
    let world = listener(&[offer(0, 255)]);
    let mut lent = block::pack(&world.bridge);
    let before = lent;
    let (rx, tx) = (&world.rx, &world.tx);
    let asked = boundary::ask_line_byte(&lent, rx, tx);
    assert_eq!((kind(asked), value(asked), asked >> 24), (BYTE, 255, 0));
    let refused = boundary::take_line_byte(&mut lent, rx, tx, 254);
    assert_eq!(
        (kind(refused), value(refused), refused >> 24),
        (REFUSED, 12, 0)
    );
    assert_eq!(lent, before);
    assert_eq!(boundary::take_line_byte(&mut lent, rx, tx, 255), DONE);
    assert_ne!(lent, before);
    assert_eq!(boundary::ask_line_byte(&lent, rx, tx), NONE << 16);
}

#[test]
fn every_order_of_bytes_that_equal_go_and_stop() {
    let alphabet = [
        Line(50),
        Line(17),
        Line(19),
        offer(0, 17),
        offer(0, 19),
        offer(4, 20),
        Write(11, 0),
        Write(11, 8),
        Ask,
        Take(17),
        Take(19),
        Take(50),
    ];
    let starts: [&[Call]; 2] = [&[], &[Line(50), Line(50), offer(0, 19), offer(0, 17)]];
    for start in starts {
        let world = listener(start);
        let mut found = Found::default();
        explore(&world, &History::starting(&world), &alphabet, 6, &mut found);
        println!("from {:?}: {found:?}", world.waiting());
        assert!(found.refused > 0 && found.taken > 0 && found.losses > 0);
    }
}
