//! How the loop side reads its messages: listening, not ready, and parallel polls.

use crate::world::{f, World, BUS};
use raftershim_mailbox_model::{Answer, LoopResponse};

type W = World<3, 3>;

#[test]
fn the_byte_that_fills_the_store_is_taken_and_passed() {
    let mut w = World::<2, 1>::new().left_by_loop(&[1]);
    assert_eq!(w.frame(2, 2), f(2, 2));
    assert_eq!(w.frame(0, 3), Answer::Refused(4));
    w.commands(&[144, 47]);
    assert_eq!(w.frame(0, 3), Answer::Refused(4));
    assert_eq!(w.for_bus(), [1, 256 + 2]);
    w.orders(&[64 + BUS]);
    w.fetch();
    assert_eq!(w.frame(0, 3), f(0, 3));
    assert_eq!(w.for_bus(), [256 + 2, 3]);
}

#[test]
fn not_ready_holds_the_frame_that_leaves_one_place() {
    let mut w = W::new().left_by_loop(&[]);
    w.commands(&[15]);
    assert_eq!(w.frame(0, 1), f(0, 1));
    assert_eq!(w.frame(2, 2), f(5, 66));
    assert_eq!(w.for_bus(), [1, 256 + 2]);
    assert_eq!(w.frame(5, 66), f(2, 2));
    assert_eq!(w.frame(5, 66), f(5, 66));
    assert_eq!(w.frame(0, 3), f(0, 3));
    w.orders(&[64 + BUS]);
    w.fetch();
    w.fetch();
    assert_eq!(w.frame(0, 4), f(5, 66));
}

#[test]
fn a_store_of_one_cell_never_leaves_one_place() {
    let mut w = World::<1, 1>::new().left_by_loop(&[]);
    w.commands(&[15]);
    assert_eq!(w.frame(0, 1), f(0, 1));
    assert_eq!(w.frame(0, 2), Answer::Refused(4));
}

#[test]
fn not_ready_ends_at_any_other_command_and_at_15_when_not_listener() {
    for command in 0..=255 {
        let mut w = W::new().left_by_loop(&[1]);
        w.commands(&[15, command]);
        assert_eq!(w.mailbox.loop_side.not_ready, command == 15);
    }
    let mut w = W::new().left_by_loop(&[1]);
    w.commands(&[15]);
    w.mailbox.loop_side.listener = false;
    w.commands(&[15]);
    assert!(!w.mailbox.loop_side.not_ready);
    for ready in 0..=255 {
        let mut w = W::new().left_by_loop(&[1]);
        w.commands(&[15]);
        w.frame(5, ready);
        assert!(w.mailbox.loop_side.not_ready);
    }
}

#[test]
fn a_command_forgets_the_held_frame_and_never_its_byte() {
    for command in (0..=255).filter(|c| ![4, 20].contains(c)) {
        let mut w = W::new().left_by_loop(&[1]);
        w.commands(&[15]);
        assert_eq!(w.frame(0, 2), f(5, 66));
        w.commands(&[command]);
        assert_eq!(w.for_bus(), [1, 2]);
        assert_eq!(w.frame(5, 66), f(5, 66));
    }
}

#[test]
fn data_that_comes_while_a_frame_is_held_is_stored_and_passed() {
    let mut w = W::new().left_by_loop(&[1]);
    w.commands(&[15]);
    assert_eq!(w.frame(0, 2), f(5, 66));
    assert_eq!(w.frame(0, 3), f(0, 3));
    assert_eq!(w.frame(0, 4), Answer::Refused(4));
    w.orders(&[64 + BUS]);
    w.fetch();
    w.fetch();
    assert_eq!(w.frame(0, 5), f(0, 5));
    assert_eq!(w.frame(5, 66), f(0, 2));
    assert_eq!(w.for_bus(), [3, 5]);
}

#[test]
fn poll_codes_below_8_answer_without_and_those_from_8_with_a_request() {
    for code in 0..16 {
        let mut quiet = W::new();
        quiet.commands(&[47, 128 + code]);
        let mut asking = quiet.left_by_bus(&[1]);
        let bit = 1 << (code % 8);
        let (without, with) = if code < 8 { (bit, 0) } else { (0, bit) };
        for (control, data) in [(6, 0), (7, 0), (6, 255), (7, 85)] {
            let frame = u32::from(data);
            assert_eq!(
                quiet.frame(control, frame),
                f(control as u16, data | without)
            );
            assert_eq!(asking.frame(control, frame), f(7, data | with));
        }
    }
}

#[test]
fn clears_addresses_and_interface_clear_leave_the_poll_setting() {
    let mut w = W::new();
    w.commands(&[47, 141]);
    let set = w.mailbox.loop_side.poll;
    let (on, line, sense) = (true, 5, true);
    assert_eq!(set, LoopResponse { on, line, sense });
    w.commands(&[20, 4, 15, 144, 154, 79, 47, 63, 95]);
    w.frame(5, 128);
    w.commands(&[5, 128, 143]);
    assert_eq!(w.mailbox.loop_side.poll, set);
}
