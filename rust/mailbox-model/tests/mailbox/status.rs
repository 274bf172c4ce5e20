//! Status bytes and service requests.

use crate::world::{byte, f, lines, World, BUS};
use raftershim_mailbox_model::{Answer, News};

type W = World<3, 3>;

/// A mailbox that is talker on the bus, in serial poll mode.
fn polled(mut w: W) -> W {
    w.orders(&[24, 64 + BUS]);
    w
}

#[test]
fn the_status_byte_is_latched_when_the_way_stops_being_empty() {
    let mut w = W::new().left_by_bus(&[1]);
    w.commands(&[79]);
    assert_eq!(w.frame(5, 97), f(1, 65));
    assert_eq!(w.echo(), f(5, 64));
    assert_eq!(w.for_loop(), [1]);
    assert_eq!(w.frame(5, 97), f(0, 0));
    w.echo();
    assert_eq!(w.byte(2, false), Answer::Done);
    assert_eq!(w.frame(5, 97), f(0, 0));
    let mut w = polled(W::new().left_by_loop(&[1]));
    assert_eq!(w.fetch(), byte(65));
    assert_eq!(w.frame(0, 2), f(0, 2));
    w.orders(&[64 + BUS]);
    assert_eq!(w.fetch(), byte(0));
    assert_eq!(w.for_bus(), [1, 2]);
}

#[test]
fn the_request_of_the_loop_ends_when_status_is_sent() {
    let mut w = W::new().left_by_bus(&[1]);
    w.commands(&[79]);
    assert_eq!(w.frame(6, 0), f(7, 0));
    assert_eq!(w.frame(5, 97), f(1, 65));
    assert_eq!(w.frame(6, 0), f(6, 0));
    let (request, available, again) = (false, true, false);
    let left = News {
        request,
        available,
        again,
    };
    assert_eq!(w.mailbox.to_loop.news, left);
}

#[test]
fn the_request_of_the_bus_ends_in_the_fetch_of_status() {
    let mut w = polled(W::new().left_by_loop(&[1]));
    assert_eq!(w.lines(), lines(true, 0));
    assert_eq!(w.fetch(), byte(65));
    assert_eq!(w.lines(), lines(false, 0));
    assert_eq!(w.mailbox.to_bus.news, News::NONE);
}

#[test]
fn damage_keeps_bit_0() {
    let mut w = W::new().left_by_bus(&[1]);
    w.commands(&[79]);
    w.frame(5, 97);
    assert_eq!(w.frame(0, 64), f(5, 65));
    assert_eq!(w.frame(5, 97), f(0, 1));
    assert_eq!(w.frame(2, 1), f(5, 65));
    assert_eq!(w.frame(5, 97), f(0, 1));
    assert_eq!(w.frame(1, 1), f(5, 64));
    assert_eq!(w.frame(5, 97), f(0, 0));
}

#[test]
fn a_command_that_cuts_status_off_keeps_bit_0() {
    let mut w = W::new().left_by_bus(&[1]);
    w.commands(&[79]);
    w.frame(5, 97);
    w.commands(&[0]);
    assert_eq!(w.frame(0, 65), f(0, 65));
    assert_eq!(w.frame(5, 97), f(0, 1));
}

#[test]
fn bit_0_that_was_set_again_since_the_sending_stays() {
    let mut w = W::new().left_by_bus(&[1]);
    w.commands(&[79]);
    w.frame(5, 97);
    w.orders(&[20]);
    assert_eq!(w.byte(2, false), Answer::Done);
    assert_eq!(w.echo(), f(5, 64));
    assert_eq!(w.frame(5, 97), f(1, 65));
    assert_eq!(w.echo(), f(5, 64));
    assert_eq!(w.frame(5, 97), f(0, 0));
}

#[test]
fn a_byte_beside_others_does_not_set_bit_0_again() {
    let mut w = W::new().left_by_bus(&[1]);
    w.commands(&[79]);
    w.frame(5, 97);
    assert_eq!(w.byte(2, false), Answer::Done);
    assert_eq!(w.echo(), f(5, 64));
    assert_eq!(w.frame(5, 97), f(0, 0));
}

#[test]
fn a_status_byte_that_did_not_show_bit_0_never_ends_it() {
    let mut w = W::new();
    w.commands(&[79]);
    assert_eq!(w.frame(5, 97), f(0, 0));
    w = w.left_by_bus(&[1]);
    assert_eq!(w.echo(), f(5, 64));
    assert_eq!(w.mailbox.to_loop.news, News::FRESH);
    // A state that calls never reach: set, not shown, and no note of it.
    w.frame(5, 97);
    w.mailbox.loop_side.under_way = 64;
    assert!(!w.mailbox.to_loop.news.again);
    assert_eq!(w.echo(), f(5, 64));
    assert!(w.mailbox.to_loop.news.available);
}

#[test]
fn news_end_when_the_way_becomes_empty() {
    let mut fetched = W::new().left_by_bus(&[1]).left_by_loop(&[2]);
    fetched.orders(&[64 + BUS]);
    assert_eq!(fetched.fetch(), byte(2));
    fetched.commands(&[79]);
    assert_eq!(fetched.frame(5, 96), f(1, 1));
    let mut cleared = W::new().left_by_bus(&[1]).left_by_loop(&[2]);
    cleared.commands(&[20]);
    cleared.orders(&[20]);
    for mut w in [fetched, cleared] {
        assert_eq!(w.mailbox.to_bus.news, News::NONE);
        assert_eq!(w.mailbox.to_loop.news, News::NONE);
        assert_eq!(w.lines(), lines(false, 0));
        assert_eq!(w.frame(6, 0), f(6, 0));
    }
}

#[test]
fn the_two_sides_request_by_themselves() {
    let mut w = W::new().left_by_bus(&[1]);
    assert_eq!((w.frame(6, 0), w.lines()), (f(7, 0), lines(false, 0)));
    let mut w = W::new().left_by_loop(&[1]);
    assert_eq!((w.frame(6, 0), w.lines()), (f(6, 0), lines(true, 0)));
    let mut w = polled(w.left_by_bus(&[2]));
    w.fetch();
    assert_eq!((w.frame(6, 0), w.lines()), (f(7, 0), lines(false, 0)));
}

#[test]
fn the_service_bit_is_what_showed_before_the_call() {
    let mut w = W::new().left_by_bus(&[1, 2]);
    assert_eq!(w.frame(0, 9), f(1, 9));
    assert_eq!(w.frame(2, 9), f(3, 9));
    w.commands(&[79]);
    for (ready, sent) in [(98, f(1, 72)), (99, f(1, 67)), (96, f(1, 1))] {
        assert_eq!(w.frame(5, ready), sent);
        w.commands(&[0]);
    }
    // The frame with the last byte that waits still has the bit.
    assert_eq!(w.frame(5, 96), f(1, 2));
    assert_eq!(w.echo(), f(5, 64));
    assert_eq!(w.frame(0, 9), f(0, 9));
    assert_eq!(w.frame(1, 9), f(1, 9));
    assert_eq!(w.frame(7, 9), f(7, 9));
}

#[test]
fn the_bit_of_a_return_is_not_carried_over() {
    let mut w = W::new().left_by_bus(&[1, 2]);
    w.commands(&[79]);
    w.frame(5, 97);
    w.echo();
    assert_eq!(w.frame(5, 96), f(0, 1));
    assert_eq!(w.frame(1, 1), f(0, 2));
}

#[test]
fn a_held_frame_keeps_its_service_bit_or_gets_ours() {
    let held = |control| {
        let mut w = W::new().left_by_loop(&[1]);
        w.commands(&[15]);
        assert_eq!(w.frame(control, 2), f(5, 66));
        w
    };
    assert_eq!(held(0).frame(5, 66), f(0, 2));
    assert_eq!(held(3).frame(5, 66), f(3, 2));
    assert_eq!(held(2).left_by_bus(&[1]).frame(5, 66), f(3, 2));
    // A request that has ended since the frame was held leaves nothing on it.
    let mut w = W::new().left_by_bus(&[1]).left_by_loop(&[1]);
    w.commands(&[15]);
    assert_eq!(w.frame(0, 2), f(5, 66));
    w.orders(&[20]);
    assert_eq!(w.frame(5, 66), f(0, 2));
}

#[test]
fn ready_frames_and_commands_never_get_the_bit() {
    let mut w = W::new().left_by_bus(&[1]);
    w.commands(&[0, 79]);
    for data in [0, 64, 65, 66, 67, 159] {
        assert_eq!(w.frame(5, data), f(5, data as u16));
    }
    w.frame(5, 98);
    assert_eq!(w.frame(0, 0), f(5, 65));
    w.frame(5, 99);
    assert_eq!(w.echo(), f(5, 64));
}
