//! A test for each row of the manual's table of HP-IB messages in mailbox mode.

use crate::world::{World, BUS};
use raftershim_mailbox_model::{Answer, BusResponse, BusSide, ADDRESSED, IDLE};

type W = World<3, 3>;

const LISTEN: u8 = 32 + BUS;
const TALK: u8 = 64 + BUS;

/// The bus side after commands.
fn after(commands: &[u8]) -> BusSide {
    let mut w = W::new();
    w.orders(commands);
    w.mailbox.bus_side
}

/// The phase of one that is talker, or is not.
fn phase(talker: bool) -> u8 {
    if talker {
        ADDRESSED
    } else {
        IDLE
    }
}

#[test]
fn device_clear() {
    let mut w = W::new().left_by_bus(&[1, 2]);
    w.orders(&[63, 20]);
    assert_eq!(w.for_loop(), []);
}

#[test]
fn interface_clear() {
    for role in [LISTEN, TALK] {
        let mut w = W::new();
        w.orders(&[role]);
        assert_eq!(w.bus_clear(), Answer::Done);
        assert_eq!(w, W::new());
    }
}

#[test]
fn listen_address() {
    for n in 0..31 {
        assert_eq!(after(&[32 + n]).listener, n == BUS);
        assert!(after(&[LISTEN, 32 + n]).listener);
        assert_eq!(after(&[TALK, 32 + n]).talker, phase(n != BUS));
    }
}

#[test]
fn parallel_poll_configure() {
    assert!(after(&[LISTEN, 5]).configuring);
    assert!(!after(&[5]).configuring);
    assert!(!after(&[TALK, 5]).configuring);
    assert_eq!(after(&[LISTEN, 5, 97, 5, 0]).poll, BusResponse::OFF);
}

#[test]
fn parallel_poll_disable() {
    for code in 112..128 {
        assert_eq!(after(&[LISTEN, 5, 97, 5, code]).poll, BusResponse::OFF);
        assert!(after(&[LISTEN, 5, 96, code]).poll.on);
    }
}

#[test]
fn parallel_poll_enable() {
    for code in 0..16 {
        let poll = after(&[LISTEN, 5, 96 + code]).poll;
        assert!(poll.on);
        assert_eq!(poll.line, code % 8);
        assert!(!after(&[LISTEN, 96 + code]).poll.on);
    }
}

#[test]
fn parallel_poll_unconfigure() {
    assert_eq!(after(&[LISTEN, 5, 97, 21]).poll, BusResponse::OFF);
    assert_eq!(after(&[LISTEN, 5, 97, 63, 21]).poll, BusResponse::OFF);
}

#[test]
fn selected_device_clear() {
    let mut w = W::new().left_by_bus(&[1, 2]);
    w.orders(&[63, 4]);
    assert_eq!(w.for_loop(), [1, 2]);
    w.orders(&[LISTEN, 4]);
    assert_eq!(w.for_loop(), []);
}

#[test]
fn talk_address() {
    for n in 0..31 {
        assert_eq!(after(&[64 + n]).talker, phase(n == BUS));
        assert_eq!(after(&[TALK, 64 + n]).talker, phase(n == BUS));
        assert_eq!(after(&[LISTEN, 64 + n]).listener, n != BUS);
    }
}

#[test]
fn unlisten() {
    assert!(!after(&[LISTEN, 63]).listener);
    assert_eq!(after(&[TALK, 63]).talker, ADDRESSED);
}

#[test]
fn untalk() {
    assert_eq!(after(&[TALK, 95]).talker, IDLE);
    assert!(after(&[LISTEN, 95]).listener);
}

#[test]
fn data_byte_and_end_byte() {
    for mark in [false, true] {
        let mut w = World::<1, 1>::new().left_by_bus(&[]);
        assert_eq!(w.byte(50, mark), Answer::Done);
        assert_eq!(w.for_loop(), [50 + 256 * u16::from(mark)]);
        assert_eq!(w.byte(51, mark), Answer::Refused(4));
        assert_eq!(World::<1, 1>::new().byte(50, mark), Answer::Done);
    }
}

/// Whether the table lists a command, or it begins or ends a serial poll.
fn listed(command: u8) -> bool {
    matches!(command, 4 | 5 | 20 | 21 | 24 | 25 | 32..=95)
}

#[test]
fn all_other_commands_change_nothing() {
    for role in [LISTEN, TALK, 63] {
        let mut w = W::new().left_by_loop(&[1]).left_by_bus(&[2]);
        w.orders(&[5, 97, 24, role]);
        let before = w;
        for command in (0..128).filter(|&command| !listed(command)) {
            w.orders(&[command]);
            assert_eq!(w, before);
        }
    }
}
