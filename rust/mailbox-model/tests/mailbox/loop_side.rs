//! How the loop side reads its messages: addresses, commands, and sending.

use crate::world::{f, World};
use raftershim_mailbox_model::{Answer, ADDRESSED, DEVICE_ID, IDLE, UNASSIGNED};

type W = World<3, 3>;

#[test]
fn an_unassigned_mailbox_answers_to_15() {
    let mut w = W::new();
    w.commands(&[46]);
    assert!(!w.mailbox.loop_side.listener);
    w.commands(&[47]);
    assert!(w.mailbox.loop_side.listener);
    w.commands(&[79]);
    assert_eq!(w.mailbox.loop_side.talker, ADDRESSED);
    assert_eq!(w.frame(5, 128), f(5, 129));
    w.commands(&[79]);
    assert_eq!(w.mailbox.loop_side.talker, IDLE);
    w.commands(&[64]);
    assert_eq!(w.mailbox.loop_side.talker, ADDRESSED);
}

#[test]
fn assigned_15_and_unassigned_are_different_states() {
    let mut w = W::new();
    assert_eq!(w.frame(5, 143), f(5, 144));
    assert_eq!(w.mailbox.loop_side.address, 15);
    assert_eq!(w.frame(5, 144), f(5, 144));
    w.commands(&[154]);
    assert_eq!(w.mailbox.loop_side.address, UNASSIGNED);
    assert_eq!(w.frame(5, 144), f(5, 145));
}

#[test]
fn the_numbers_63_and_95_are_never_an_address() {
    let mut w = W::new();
    for assigned in [false, true] {
        if assigned {
            assert_eq!(w.frame(5, 158), f(5, 159));
        }
        w.commands(&[63]);
        assert!(!w.mailbox.loop_side.listener);
        w.commands(&[95]);
        assert_eq!(w.mailbox.loop_side.talker, IDLE);
    }
    w.commands(&[94, 95]);
    assert_eq!(w.mailbox.loop_side.talker, IDLE);
}

#[test]
fn addresses_come_and_go_under_a_talker_and_a_listener() {
    for role in [47, 79] {
        let mut w = W::new();
        w.commands(&[role]);
        let before = w.mailbox.loop_side;
        assert_eq!(w.frame(5, 131), f(5, 132));
        w.commands(&[154]);
        assert_eq!(w.mailbox.loop_side, before);
    }
}

#[test]
fn every_command_makes_an_active_talker_merely_addressed() {
    for command in (0..=255).filter(|c| !(64..=95).contains(c) && ![47, 144].contains(c)) {
        for ready in 96..=99 {
            let mut w = W::new().left_by_bus(&[1, 2]);
            w.commands(&[79]);
            w.frame(5, ready);
            let sent = w.mailbox.loop_side.under_way;
            w.commands(&[command]);
            let side = w.mailbox.loop_side;
            assert_eq!((side.talker, side.under_way), (1, 0));
            // The source stays.
            assert_eq!(side.source, [0, 0, 1, 10][ready as usize - 96]);
            // The forgotten frame passes, with the bit of a request that still shows.
            let service = if ready == 97 { 0 } else { 256 };
            assert_eq!(w.whole_frame(sent.into()), Answer::Frame(sent | service));
        }
    }
}

#[test]
fn interface_clear_leaves_stores_requests_and_poll_settings() {
    let mut w = W::new().left_by_bus(&[1]).left_by_loop(&[2]);
    w.commands(&[139]);
    let before = w;
    w.commands(&[144]);
    assert!(!w.mailbox.loop_side.listener);
    w.mailbox.loop_side.listener = true;
    assert_eq!(w, before);
}

#[test]
fn a_clear_from_the_loop_clears_the_way_to_the_bus_alone() {
    for (listener, command, cleared) in [(true, 4, true), (false, 4, false), (false, 20, true)] {
        let mut w = W::new().left_by_bus(&[1]).left_by_loop(&[2, 3]);
        if !listener {
            w.commands(&[63]);
        }
        let kept = w.mailbox.to_loop;
        w.commands(&[command]);
        assert_eq!(w.for_bus().is_empty(), cleared);
        assert_eq!(w.mailbox.to_loop, kept);
    }
}

#[test]
fn what_waits_is_sent_byte_by_byte_and_a_mark_does_not_end_it() {
    let mut w = W::new().left_by_bus(&[]);
    for (byte, mark) in [(50, false), (46, true), (53, false)] {
        assert_eq!(w.byte(byte, mark), Answer::Done);
    }
    w.commands(&[79]);
    w.frame(5, 97);
    w.echo();
    assert_eq!(w.frame(5, 96), f(0, 50));
    assert_eq!(w.echo(), f(2, 46));
    assert_eq!(w.echo(), f(0, 53));
    assert_eq!(w.echo(), f(5, 64));
    assert_eq!(w.frame(5, 96), f(5, 64));
}

#[test]
fn what_comes_while_sending_is_sent_too() {
    let mut w = W::new().left_by_bus(&[1]);
    w.commands(&[79]);
    assert_eq!(w.frame(5, 96), f(1, 1));
    assert_eq!(w.byte(2, true), Answer::Done);
    // The way was empty in between, so a new request shows.
    assert_eq!(w.echo(), f(3, 2));
    assert_eq!(w.echo(), f(5, 64));
}

#[test]
fn a_damaged_frame_is_fetched_and_not_sent_again() {
    let mut w = W::new().left_by_bus(&[1, 2]);
    w.commands(&[79]);
    assert_eq!(w.frame(5, 96), f(1, 1));
    assert_eq!(w.frame(0, 3), f(5, 65));
    assert_eq!(w.for_loop(), [2]);
    assert_eq!(w.mailbox.loop_side.talker, ADDRESSED);
    assert_eq!(w.frame(5, 96), f(1, 2));
}

#[test]
fn not_ready_makes_any_sending_finish_after_the_frame_under_way() {
    for ready in 96..=99 {
        let mut w = W::new().left_by_bus(&[1, 2]);
        w.commands(&[79]);
        w.frame(5, ready);
        let waits = w.for_loop();
        assert_eq!(w.frame(5, 66), f(5, 66));
        assert_eq!(w.frame(5, 66), f(5, 66));
        assert_eq!(w.echo(), f(5, 64));
        assert_eq!(w.for_loop(), waits);
        w.frame(5, ready);
        w.frame(5, 66);
        assert_eq!(w.frame(2, 255), f(5, 65));
    }
}

#[test]
fn orders_to_send_pass_while_active_and_while_not_talker() {
    for ready in 96..=99 {
        let mut w = W::new().left_by_bus(&[1, 2]);
        assert_eq!(w.frame(5, ready), f(5, ready as u16));
        w.commands(&[79]);
        for active in 96..=99 {
            w.frame(5, active);
            let before = w;
            assert_eq!(w.frame(5, ready), f(5, ready as u16));
            assert_eq!(w, before);
            w.commands(&[0]);
        }
    }
}

#[test]
fn an_id_is_cut_off_by_damage_and_starts_anew() {
    let mut w = W::new();
    w.commands(&[79]);
    assert_eq!(w.frame(5, 98), f(0, 72));
    assert_eq!(w.echo(), f(0, 80));
    assert_eq!(w.frame(0, 0), f(5, 65));
    assert_eq!(w.frame(5, 98), f(0, u16::from(DEVICE_ID[0])));
}

#[test]
fn a_frame_under_way_stays_ours_when_the_bus_clears_the_way() {
    let sending = || {
        let mut w = W::new().left_by_bus(&[1, 2]);
        w.commands(&[79]);
        assert_eq!(w.frame(5, 96), f(1, 1));
        w.orders(&[20]);
        w
    };
    assert_eq!(sending().echo(), f(5, 64));
    assert_eq!(sending().frame(0, 9), f(5, 65));
    let mut w = sending();
    assert_eq!(w.byte(3, false), Answer::Done);
    assert_eq!(w.echo(), f(1, 3));
}
