//! The fields of a state are where the archive keeps them: each call changes the fields it should.

use super::*;
use raftershim::{MailboxState, Refusal, Talker};
use std::collections::HashSet;

type Fixed = Mailbox<[u16; 600], [u16; 300]>;

/// A mailbox whose lengths and places need two bytes in the block.
fn fresh() -> Fixed {
    let ways = Ways {
        to_bus: [0; 600],
        to_loop: [0; 300],
    };
    Mailbox::create(ways, 7).unwrap()
}

fn state(mailbox: &Fixed) -> MailboxState {
    mailbox.state().unwrap()
}

#[test]
fn a_fresh_mailbox_has_the_start_values() {
    let mut used = fresh();
    let start = state(&used);
    assert_eq!((start.to_bus.len, start.to_loop.len), (600, 300));
    for way in [start.to_bus, start.to_loop] {
        assert_eq!((way.ring.oldest, way.ring.held), (0, 0));
        assert_eq!([way.request, way.available, way.again], [false; 3]);
    }
    let side = start.loop_side;
    assert_eq!((side.address, side.talker), (None, Talker::Not));
    assert_eq!(
        (side.under_way, side.held_back, side.poll),
        (None, None, None)
    );
    assert_eq!([side.listener, side.finishing, side.not_ready], [false; 3]);
    assert_eq!(side.id_sent, 0);
    let side = start.bus_side;
    assert_eq!((Some(side.address), side.poll), (Address::new(7), None));
    let roles = [side.talker, side.listener, side.serial_poll];
    assert_eq!(
        (roles, [side.status_read, side.configuring]),
        ([false; 3], [false; 2])
    );
    leave_for_bus(&mut used, &[50]);
    leave_for_loop(&mut used, &[50]);
    assert_ne!(state(&used), start);
    used.reset().unwrap();
    assert_eq!(state(&used), start);
}

#[test]
fn the_loop_side_follows_the_loop() {
    let mut mailbox = fresh();
    let mut expected = state(&mailbox);
    frame_taken(&mut mailbox, (5, 129), (5, 130));
    expected.loop_side.address = Some(Address::FIRST);
    assert_eq!(state(&mailbox), expected);
    frame_taken(&mut mailbox, (4, 33), (4, 33));
    expected.loop_side.listener = true;
    assert_eq!(state(&mailbox), expected);
    frame_taken(&mut mailbox, (4, 15), (4, 15));
    expected.loop_side.not_ready = true;
    assert_eq!(state(&mailbox), expected);
    frame_taken(&mut mailbox, (4, 65), (4, 65));
    let side = &mut expected.loop_side;
    (side.listener, side.not_ready, side.talker) = (false, false, Talker::Addressed);
    assert_eq!(state(&mailbox), expected);
    frame_taken(&mut mailbox, (4, 154), (4, 154));
    expected.loop_side.address = None;
    assert_eq!(state(&mailbox), expected);
}

#[test]
fn the_loops_poll_has_its_line_and_its_sense() {
    let mut mailbox = fresh();
    frame_taken(&mut mailbox, (5, 129), (5, 130));
    frame_taken(&mut mailbox, (4, 33), (4, 33));
    for code in 0..16 {
        frame_taken(&mut mailbox, (4, 128 + code), (4, 128 + code));
        let poll = state(&mailbox).loop_side.poll.unwrap();
        assert_eq!((poll.line, poll.when_requested), (code % 8, code > 7));
    }
    frame_taken(&mut mailbox, (4, 5), (4, 5));
    assert_eq!(state(&mailbox).loop_side.poll, None);
}

#[test]
fn the_bus_side_follows_the_bus() {
    let mut mailbox = fresh();
    let mut expected = state(&mailbox);
    command(&mut mailbox, 32 + 7);
    expected.bus_side.listener = true;
    assert_eq!(state(&mailbox), expected);
    command(&mut mailbox, 5);
    expected.bus_side.configuring = true;
    assert_eq!(state(&mailbox), expected);
    command(&mut mailbox, 96 + 3);
    (expected.bus_side.configuring, expected.bus_side.poll) = (false, Some(3));
    assert_eq!(state(&mailbox), expected);
    command(&mut mailbox, 64 + 7);
    (expected.bus_side.listener, expected.bus_side.talker) = (false, true);
    assert_eq!(state(&mailbox), expected);
    command(&mut mailbox, 24);
    expected.bus_side.serial_poll = true;
    assert_eq!(state(&mailbox), expected);
    assert_eq!(mailbox.bus_fetch(), Ok(Some(byte(0, false))));
    expected.bus_side.status_read = true;
    assert_eq!(state(&mailbox), expected);
    mailbox.bus_clear().unwrap();
    let side = &mut expected.bus_side;
    (side.talker, side.serial_poll, side.status_read) = (false, false, false);
    assert_eq!(state(&mailbox), expected);
}

#[test]
fn the_loop_leaves_and_the_bus_fetches() {
    let mut mailbox = fresh();
    leave_for_bus(&mut mailbox, &[65; 520]);
    let mut expected = state(&mailbox);
    assert_eq!(
        (expected.to_bus.ring.oldest, expected.to_bus.ring.held),
        (0, 520)
    );
    let news = expected.to_bus;
    assert_eq!([news.request, news.available, news.again], [true; 3]);
    assert_eq!(mailbox.room(Way::ToBus), Ok(80));
    command(&mut mailbox, 64 + 7);
    for _ in 0..258 {
        assert_eq!(mailbox.bus_fetch(), Ok(Some(byte(65, false))));
    }
    expected.bus_side.talker = true;
    (expected.to_bus.ring.oldest, expected.to_bus.ring.held) = (258, 262);
    assert_eq!(state(&mailbox), expected);
    // The status byte in a serial poll ends the news, and what waits stays.
    command(&mut mailbox, 24);
    assert_eq!(mailbox.bus_fetch(), Ok(Some(byte(65, false))));
    (expected.bus_side.serial_poll, expected.bus_side.status_read) = (true, true);
    (expected.to_bus.request, expected.to_bus.available) = (false, false);
    expected.to_bus.again = false;
    assert_eq!(state(&mailbox), expected);
}

#[test]
fn the_bus_leaves_and_the_loop_fetches() {
    let mut mailbox = fresh();
    leave_for_loop(&mut mailbox, &[65; 270]);
    frame_taken(&mut mailbox, (5, 129), (5, 130));
    frame_taken(&mut mailbox, (4, 65), (4, 65));
    let mut expected = state(&mailbox);
    assert_eq!(expected.to_loop.ring.held, 270);
    let news = expected.to_loop;
    assert_eq!([news.request, news.available, news.again], [true; 3]);
    // The status byte ends the request when it is sent, and the news when it has come back.
    frame_taken(&mut mailbox, (5, 97), (1, 65));
    (expected.to_loop.request, expected.to_loop.again) = (false, false);
    expected.loop_side.talker = Talker::Status;
    expected.loop_side.under_way = Some(frame((0, 65)));
    assert_eq!(state(&mailbox), expected);
    frame_taken(&mut mailbox, (1, 65), (5, 64));
    expected.to_loop.available = false;
    expected.loop_side.talker = Talker::Addressed;
    expected.loop_side.under_way = None;
    assert_eq!(state(&mailbox), expected);
    frame_taken(&mut mailbox, (5, 96), (0, 65));
    for _ in 0..264 {
        frame_taken(&mut mailbox, (0, 65), (0, 65));
    }
    frame_taken(&mut mailbox, (5, 66), (5, 66));
    expected.loop_side.talker = Talker::Data;
    expected.loop_side.under_way = Some(frame((0, 65)));
    expected.loop_side.finishing = true;
    (expected.to_loop.ring.oldest, expected.to_loop.ring.held) = (265, 5);
    assert_eq!(state(&mailbox), expected);
}

#[test]
fn an_id_under_way_is_counted() {
    let mut mailbox = fresh();
    frame_taken(&mut mailbox, (5, 129), (5, 130));
    frame_taken(&mut mailbox, (4, 65), (4, 65));
    let mut last = (5, 98);
    for (place, id) in (*b"HP82169A\r\n").into_iter().enumerate() {
        frame_taken(&mut mailbox, last, (0, id));
        let side = state(&mailbox).loop_side;
        assert_eq!(
            (usize::from(side.id_sent), side.talker),
            (place + 1, Talker::Data)
        );
        last = (0, id);
    }
    frame_taken(&mut mailbox, last, (5, 64));
    frame_taken(&mut mailbox, (5, 99), (0, 67));
    assert_eq!(state(&mailbox).loop_side.id_sent, 10);
}

#[test]
fn a_frame_is_held_back_while_not_ready() {
    let mut mailbox = small();
    leave_for_bus(&mut mailbox, &[50, 51]);
    frame_taken(&mut mailbox, (4, 15), (4, 15));
    frame_taken(&mut mailbox, (2, 52), (5, 66));
    let held_back = |mailbox: &Small| mailbox.state().unwrap().loop_side.held_back;
    assert_eq!(held_back(&mailbox), Some(Frame::end_byte(52)));
    frame_taken(&mut mailbox, (5, 66), (2, 52));
    assert_eq!(held_back(&mailbox), None);
}

#[test]
fn every_byte_of_a_block_but_the_version_belongs_to_a_field() {
    // What fits with one byte changed is another state, field by field.
    let (saved, ways) = fresh().into_parts();
    let mut states = vec![state(&fresh())];
    for place in 1..saved.as_bytes().len() {
        for value in 0..=u8::MAX {
            let mut block = *saved.as_bytes();
            if std::mem::replace(&mut block[place], value) == value {
                continue;
            }
            let changed = block.as_slice().try_into().unwrap();
            match Mailbox::restore(changed, ways) {
                Err(refusal) => assert_eq!(refusal, Refusal::MISFIT),
                Ok(mailbox) => states.push(state(&mailbox)),
            }
        }
    }
    // These say nothing here: the frame under way and the one held back, up to 3,255 each, since
    // there are none, the lines of both polls, 1 to 7, and the sense of the loop's, since both are
    // off.
    let silent = 2 * (255 + 3) + 2 * 7 + 1;
    let idle = states.iter().filter(|&&other| other == states[0]).count();
    let different: HashSet<_> = states.iter().collect();
    assert_eq!((idle, states.len() - different.len()), (1 + silent, silent));
}

#[test]
fn a_saved_mailbox_goes_on_where_it_was() {
    let mut mailbox = fresh();
    leave_for_loop(&mut mailbox, &[50]);
    let (saved, ways) = mailbox.clone().into_parts();
    let mut restored = Mailbox::restore(saved, ways).unwrap();
    assert_eq!(restored, mailbox);
    leave_for_loop(&mut restored, &[46]);
    assert_eq!(shown(&restored, Way::ToLoop), [256 + 50, 256 + 46]);
    assert_eq!(shown(&mailbox, Way::ToLoop), [256 + 50]);
}

#[test]
fn long_stores_are_not_printed() {
    let mailbox = fresh();
    let (saved, ways) = mailbox.clone().into_parts();
    let said = format!("{mailbox:?} {saved:?} {ways:?}");
    assert!(said.len() < 1500, "{} characters", said.len());
    assert!(said.contains("to_bus_len: 600") && said.contains("version: 129"));
}
