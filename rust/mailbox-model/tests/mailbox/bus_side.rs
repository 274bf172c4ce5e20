//! How the bus side reads its messages: polls, clears, bytes taken and fetched, the lines.

use crate::world::{byte, end, lines, World, BUS};
use raftershim_mailbox_model::{Answer, BusResponse};

type W = World<3, 3>;

const LISTEN: u8 = 32 + BUS;
const TALK: u8 = 64 + BUS;

#[test]
fn a_clear_from_the_bus_clears_the_way_to_the_loop_alone() {
    for (order, command, cleared) in [(LISTEN, 4, true), (63, 4, false), (63, 20, true)] {
        let mut w = W::new().left_by_loop(&[1]).left_by_bus(&[2, 3]);
        let kept = w.mailbox.to_bus;
        w.orders(&[order, command]);
        assert_eq!(w.for_loop().is_empty(), cleared);
        assert_eq!(w.mailbox.to_bus, kept);
    }
}

#[test]
fn serial_poll_mode_begins_at_24_and_ends_at_25_and_leaves_the_role() {
    for role in [LISTEN, TALK, 63] {
        let mut w = W::new();
        w.orders(&[role]);
        let before = w;
        w.orders(&[24]);
        assert!(w.mailbox.bus_side.serial_poll);
        w.orders(&[25]);
        assert_eq!(w, before);
    }
}

#[test]
fn srq_ends_by_the_reading_of_the_status_byte_and_not_by_the_address() {
    let mut w = W::new().left_by_loop(&[1]);
    w.orders(&[24, TALK]);
    assert_eq!(w.lines(), lines(true, 0));
    assert_eq!(w.fetch(), byte(65));
    assert_eq!(w.lines(), lines(false, 0));
}

#[test]
fn a_pending_configure_takes_the_next_command_alone() {
    let mut w = W::new();
    w.orders(&[LISTEN, 5, 99]);
    let (on, line) = (true, 3);
    assert_eq!(w.mailbox.bus_side.poll, BusResponse { on, line });
    let before = w;
    w.orders(&[96, 112]);
    assert_eq!(w, before);
    w.orders(&[5, 112]);
    assert_eq!(w.mailbox.bus_side.poll, BusResponse::OFF);
    w.orders(&[5, 99, 5, 0, 96]);
    assert_eq!(w.mailbox.bus_side.poll, BusResponse::OFF);
}

#[test]
fn a_command_that_is_not_secondary_ends_the_response_and_acts_as_usual() {
    for command in 0..96 {
        let mut w = W::new().left_by_bus(&[1]);
        w.orders(&[5, 98]);
        let mut plain = w;
        w.orders(&[5, command]);
        plain.orders(&[command]);
        plain.mailbox.bus_side.poll = BusResponse::OFF;
        assert_eq!(w, plain);
    }
}

#[test]
fn interface_clear_ends_roles_serial_poll_and_a_pending_configure() {
    let mut w = W::new().left_by_loop(&[1]).left_by_bus(&[2]);
    w.orders(&[5, 98, 24]);
    let mut talker = w;
    talker.orders(&[TALK]);
    for mut cleared in [w, talker] {
        assert_eq!(cleared.bus_clear(), Answer::Done);
        let mut expected = w;
        expected.mailbox.bus_side.listener = false;
        expected.mailbox.bus_side.serial_poll = false;
        assert_eq!(cleared, expected);
    }
    w.orders(&[5]);
    w.bus_clear();
    assert_eq!(w.mailbox.bus_side.poll, BusResponse::OFF);
    w.orders(&[98]);
    assert_eq!(w.mailbox.bus_side.poll, BusResponse::OFF);
}

#[test]
fn a_byte_is_kept_by_a_listener_alone() {
    for order in [63, TALK] {
        let mut w = W::new();
        w.orders(&[order]);
        let before = w;
        assert_eq!(w.byte(50, true), Answer::Done);
        assert_eq!(w, before);
    }
    let mut w = World::<1, 1>::new().left_by_bus(&[1]);
    assert_eq!(w.byte(2, false), Answer::Refused(4));
    w.orders(&[63]);
    assert_eq!(w.byte(2, false), Answer::Done);
    assert_eq!(w.for_loop(), [1]);
}

#[test]
fn a_fetch_gives_what_waits_with_its_marks() {
    let mut w = W::new().left_by_loop(&[50]);
    w.frame(2, 53);
    assert_eq!(w.fetch(), Answer::None);
    w.orders(&[TALK]);
    assert_eq!(w.fetch(), byte(50));
    assert_eq!(w.fetch(), end(53));
    assert_eq!(w.fetch(), Answer::None);
}

#[test]
fn in_serial_poll_mode_the_status_byte_is_given_once_and_no_data() {
    let mut w = W::new().left_by_loop(&[50]);
    w.orders(&[24]);
    assert_eq!(w.fetch(), Answer::None);
    w.orders(&[TALK]);
    assert_eq!(w.fetch(), byte(65));
    assert_eq!(w.fetch(), Answer::None);
    w.orders(&[0]);
    assert_eq!(w.fetch(), byte(0));
    assert_eq!(w.fetch(), Answer::None);
    assert_eq!(w.for_bus(), [50]);
    w.bus_clear();
    w.orders(&[24, TALK]);
    assert_eq!(w.fetch(), byte(0));
    w.orders(&[25]);
    assert_eq!(w.fetch(), byte(50));
}

#[test]
fn the_lines_show_the_request_and_change_nothing() {
    for code in 96..112 {
        let mut w = W::new();
        w.orders(&[LISTEN, 5, code]);
        let before = w;
        assert_eq!(w.lines(), lines(false, 0));
        assert_eq!(w, before);
        w = w.left_by_loop(&[1]);
        assert_eq!(w.lines(), lines(true, 1 << (code % 8)));
        w.orders(&[24, TALK]);
        w.fetch();
        assert_eq!(w.lines(), lines(false, 0));
        w.orders(&[21]);
        assert_eq!(w.left_by_loop(&[2]).lines(), lines(false, 0));
    }
}
