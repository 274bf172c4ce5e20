//! Blocks that are changed in one byte, of another version, of another length, or of the bridge.

use crate::alphabets::{used, BUS};
use mailbox_model::block::{LEN, VERSION};
use raftershim_checks::answer::{refused, DONE};
use raftershim_checks::bridge;
use raftershim_checks::edges::{every_byte_at_every_value, fits};
use raftershim_checks::mailbox::call::{frame, Call};
use raftershim_checks::mailbox::{Pair, TheMailbox};

/// Every call that can be refused 2, with numbers that would be refused otherwise too.
const REFUSABLE: [Call; 9] = [
    Call::Lines,
    Call::Frame(2048),
    Call::Command(128),
    frame(0, 9),
    Call::Command(0),
    Call::Byte(13, 1),
    Call::Fetch,
    Call::Clear,
    Call::Reset,
];

#[test]
fn every_byte_of_the_block_has_every_value() {
    let mut counts = [0; 2];
    // The second has stores whose sizes fill both bytes.
    for (to_bus, to_loop) in [(2, 1), (300, 513)] {
        let good = used(to_bus, to_loop);
        let [states, misfits] = every_byte_at_every_value(&good, &REFUSABLE);
        counts = [counts[0] + states, counts[1] + misfits];
    }
    let [states, misfits] = counts;
    assert!(states > 0 && misfits > 0);
    println!(
        "edges of the mailbox, blocks: {states} are states, {misfits} refused 2 by every call"
    );
}

#[test]
fn talker_and_listener_at_once_is_no_state() {
    let good = used(2, 1);
    let mut refused = 0;
    for (talker, listener, most) in [(18, 19, 3), (24, 26, 1)] {
        for phase in 0..=most {
            for listens in 0..2 {
                let mut block = good.buffers().block().to_vec();
                (block[talker], block[listener]) = (phase, listens);
                let fit = fits::<TheMailbox>(&block, good.buffers().stores(), &REFUSABLE);
                assert_eq!(fit, phase == 0 || listens == 0);
                refused += usize::from(!fit);
            }
        }
    }
    println!("edges of the mailbox, roles: {refused} at once are refused 2");
}

#[test]
fn another_version_is_refused_by_every_call_but_create() {
    let good = used(2, 1);
    let ((to_bus, to_loop), mut others) = (good.buffers().stores(), 0);
    for version in (0..=255).filter(|&version| version != VERSION) {
        let mut block = good.buffers().block().to_vec();
        block[0] = version;
        let mut pair = Pair::holding(&block, to_bus, to_loop);
        for side in 0..2 {
            pair.expect(Call::Show(side), 0);
        }
        for call in REFUSABLE {
            pair.expect(call, refused(2));
        }
        assert_eq!(pair.recreate(BUS), Ok(DONE));
        assert_eq!(pair.buffers().block()[0], VERSION);
        others += 1;
    }
    println!("edges of the mailbox, versions: {others} refused 2 by every call but create");
}

#[test]
fn a_block_of_one_machine_is_none_of_the_other() {
    let mut of_bridge = bridge::Pair::create(4, 3, 1);
    of_bridge.ask(bridge::call::Call::Line(50));
    let of_mailbox = used(4, 3);
    let mut refusals = 0;
    for len in [0, 1, LEN - 1, LEN, LEN + 1, 55, 56, 57] {
        let mut block = of_bridge.buffers().block().to_vec();
        block.resize(len, 0);
        let mut pair = Pair::holding(&block, &[0; 4], &[0; 3]);
        for call in REFUSABLE {
            pair.expect(call, refused(2));
            refusals += 1;
        }
        pair.expect(Call::Show(0), 0);
        let mut block = of_mailbox.buffers().block().to_vec();
        block.resize(len, 0);
        let mut pair = bridge::Pair::holding(&block, &[0; 4], &[0; 3]);
        use bridge::call::Call::{
            Ask, Break, Frame, Key, Line, Register, Reset, ShowReceive, Take,
        };
        for call in [
            Frame(2048),
            Break,
            Key,
            Line(1),
            Ask,
            Take(1),
            Register(3, 3),
            Reset,
        ] {
            pair.expect(call, refused(2));
            refusals += 1;
        }
        pair.expect(ShowReceive, 0);
    }
    println!("edges of both machines: {refusals} calls on the other's block refused 2");
}

#[test]
fn lengths_other_than_recorded() {
    let good = used(4, 3);
    let (mut fit, mut misfits) = (0, 0);
    for to_bus in [0, 1, 3, 4, 5, 65_540] {
        for to_loop in [0, 2, 3, 4, 65_539] {
            for block_len in [0, 1, LEN - 1, LEN, LEN + 1, 56, 82] {
                let mut block = good.buffers().block().to_vec();
                block.resize(block_len, 0);
                let (one, other) = (vec![0; to_bus], vec![0; to_loop]);
                let due = (to_bus, to_loop, block_len) == (4, 3, LEN);
                let fits = fits::<TheMailbox>(&block, (&one, &other), &REFUSABLE);
                assert_eq!(fits, due);
                *(if due { &mut fit } else { &mut misfits }) += 1;
            }
        }
    }
    println!("edges of the mailbox, lengths: {fit} that fits, {misfits} refused 2");
}
