//! A test for each row of the manual's table of HP-IL messages in mailbox mode.

use crate::world::{f, World, BUS};
use raftershim_mailbox_model::{
    Answer, LoopResponse, LoopSide, ADDRESSED, DEVICE_ID, IDLE, UNASSIGNED,
};

type W = World<3, 3>;

/// The loop side after commands to one that has the address 3.
fn after(commands: &[u16]) -> LoopSide {
    let mut w = W::new();
    w.frame(5, 131);
    w.commands(commands);
    w.mailbox.loop_side
}

#[test]
fn auto_address_unconfigure() {
    assert_eq!(after(&[]).address, 3);
    assert_eq!(after(&[154]).address, UNASSIGNED);
    assert!(after(&[154, 47]).listener);
    assert!(!after(&[154, 35]).listener);
}

#[test]
fn device_clear() {
    let mut w = W::new().left_by_loop(&[1, 2]);
    w.commands(&[63, 20]);
    assert_eq!(w.for_bus(), []);
}

#[test]
fn enable_listener_not_ready() {
    assert!(after(&[35, 15]).not_ready);
    assert!(!after(&[15]).not_ready);
    assert!(!after(&[67, 15]).not_ready);
}

#[test]
fn interface_clear() {
    assert!(!after(&[35, 144]).listener);
    assert_eq!(after(&[67, 144]).talker, IDLE);
}

#[test]
fn listen_address() {
    for n in 0..31 {
        assert_eq!(after(&[32 + n]).listener, n == 3);
        assert!(after(&[35, 32 + n]).listener);
    }
    let taken = after(&[67, 35]);
    assert!(taken.listener && taken.talker == IDLE);
    assert_eq!(after(&[67, 36]).talker, ADDRESSED);
    assert!(!after(&[35, 32 + 31]).listener);
}

#[test]
fn parallel_poll_disable() {
    assert_eq!(after(&[35, 137, 5]).poll, LoopResponse::OFF);
    assert!(after(&[35, 136, 63, 5]).poll.on);
}

#[test]
fn parallel_poll_enable() {
    for code in 0..16 {
        let poll = after(&[35, 128 + code]).poll;
        assert!(poll.on);
        assert_eq!(u16::from(poll.line), code % 8);
        assert_eq!(poll.sense, code >= 8);
        assert!(!after(&[128 + code]).poll.on);
        assert!(!after(&[67, 128 + code]).poll.on);
    }
}

#[test]
fn parallel_poll_unconfigure() {
    assert_eq!(after(&[35, 137, 63, 21]).poll, LoopResponse::OFF);
    assert_eq!(after(&[35, 137, 21]).poll, LoopResponse::OFF);
}

#[test]
fn selected_device_clear() {
    let mut w = W::new().left_by_loop(&[1, 2]);
    w.commands(&[63, 4]);
    assert_eq!(w.for_bus(), [1, 2]);
    w.commands(&[47, 4]);
    assert_eq!(w.for_bus(), []);
}

#[test]
fn talk_address() {
    for n in 0..32 {
        let phase = if n == 3 { ADDRESSED } else { IDLE };
        assert_eq!(after(&[64 + n]).talker, phase);
        assert_eq!(after(&[67, 64 + n]).talker, phase);
        assert_eq!(after(&[35, 64 + n]).listener, n != 3);
    }
}

#[test]
fn unlisten() {
    assert!(!after(&[35, 63]).listener);
    assert_eq!(after(&[67, 63]).talker, ADDRESSED);
}

#[test]
fn untalk() {
    assert_eq!(after(&[67, 95]).talker, IDLE);
    assert!(after(&[35, 95]).listener);
}

#[test]
fn auto_address() {
    for n in 0..31 {
        let mut w = W::new();
        assert_eq!(w.frame(5, 128 + n), f(5, 129 + n as u16));
        assert_eq!(u32::from(w.mailbox.loop_side.address), n);
        assert_eq!(w.frame(5, 130), f(5, 130));
        assert_eq!(u32::from(w.mailbox.loop_side.address), n);
    }
    let mut w = W::new();
    assert_eq!(w.frame(5, 159), f(5, 159));
    assert_eq!(w, W::new());
}

#[test]
fn not_ready_for_data() {
    let mut w = W::new().left_by_bus(&[1, 2, 3]);
    w.commands(&[79]);
    w.frame(5, 96);
    assert_eq!(w.frame(5, 66), f(5, 66));
    assert_eq!(w.echo(), f(5, 64));
    assert_eq!(w.for_loop(), [2, 3]);
}

#[test]
fn ready_for_command() {
    let mut w = W::new();
    assert_eq!(w.frame(5, 0), f(5, 0));
    assert_eq!(w, W::new());
}

#[test]
fn send_accessory_id() {
    let mut w = W::new();
    w.commands(&[79]);
    assert_eq!(w.frame(5, 99), f(0, 67));
    assert_eq!(w.echo(), f(5, 64));
}

#[test]
fn send_data() {
    let mut w = W::new().left_by_bus(&[1, 2]);
    w.commands(&[79]);
    assert_eq!(w.frame(5, 96), f(1, 1));
    assert_eq!(w.echo(), f(1, 2));
    assert_eq!(w.echo(), f(5, 64));
    assert_eq!(w.frame(5, 96), f(5, 64));
    assert_eq!(w.mailbox.loop_side.talker, ADDRESSED);
    // What waits for the bus is never sent to the loop.
    let mut w = W::new().left_by_loop(&[1]);
    w.commands(&[79]);
    assert_eq!(w.frame(5, 96), f(5, 64));
}

#[test]
fn send_device_id() {
    assert_eq!(&DEVICE_ID, b"HP82169A\x0d\x0a");
    let mut w = W::new();
    w.commands(&[79]);
    let mut answer = w.frame(5, 98);
    for byte in DEVICE_ID {
        assert_eq!(answer, f(0, u16::from(byte)));
        answer = w.echo();
    }
    assert_eq!(answer, f(5, 64));
}

#[test]
fn send_status() {
    let mut w = W::new().left_by_bus(&[1]);
    w.commands(&[79]);
    assert_eq!(w.frame(5, 97), f(1, 65));
    assert_eq!(w.echo(), f(5, 64));
    assert_eq!(w.frame(5, 97), f(0, 0));
}

#[test]
fn identify_with_and_without_service_request() {
    for (control, quiet, asking) in [(6, f(6, 9), f(7, 9)), (7, f(7, 9), f(7, 9))] {
        assert_eq!(W::new().frame(control, 9), quiet);
        assert_eq!(W::new().left_by_bus(&[1]).frame(control, 9), asking);
    }
}

#[test]
fn data_byte_and_end_byte_with_and_without_service_request() {
    for control in 0..4u16 {
        let offer = u32::from(control);
        let mut w = W::new().left_by_loop(&[]);
        assert_eq!(w.frame(offer, 50), f(control, 50));
        assert_eq!(w.for_bus(), [50 + 256 * (control >> 1)]);
        let mut asking = w.left_by_bus(&[1]);
        assert_eq!(asking.frame(offer, 51), f(control | 1, 51));
        let mut near = w;
        near.commands(&[15]);
        assert_eq!(near.frame(offer, 51), f(5, 66));
        let mut full = asking.left_by_loop(&[3]);
        assert_eq!(full.frame(offer, 52), Answer::Refused(4));
        let mut unlistened = w;
        unlistened.commands(&[63]);
        assert_eq!(unlistened.frame(offer, 50), f(control, 50));
        assert_eq!(unlistened.for_bus(), w.for_bus());
    }
}

/// Whether the table lists a command or ready frame that can change something.
fn listed(control: u32, data: u32) -> bool {
    match control {
        4 => matches!(data, 4 | 5 | 15 | 20 | 21 | 32..=95 | 128..=144 | 154),
        _ => matches!(data, 66 | 96..=99 | 128..=158),
    }
}

#[test]
fn all_other_messages_pass_and_change_nothing() {
    for role in [47, 79, 144] {
        let mut w = W::new().left_by_bus(&[1]).left_by_loop(&[2]);
        w.commands(&[138, role]);
        w.orders(&[5, 96, 64 + BUS]);
        let before = w;
        for control in [4, 5] {
            for data in (0..256).filter(|&data| !listed(control, data)) {
                assert_eq!(w.frame(control, data), f(control as u16, data as u16));
                assert_eq!(w, before);
            }
        }
    }
}
