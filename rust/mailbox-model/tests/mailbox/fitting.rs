//! Which states fit, and that every call is total on those that do.

use crate::draw::Draw;
use crate::world::World;
use raftershim_mailbox_model::{Answer, Mailbox, Part, LARGEST};

type Small = World<2, 1>;

/// Each changes one thing in a fresh state, after which it does not fit.
const MISFITS: [fn(&mut Mailbox); 21] = [
    |m| m.to_bus.ring.capacity = 1,
    |m| m.to_loop.ring.capacity = 2,
    |m| m.to_bus.ring.oldest = 2,
    |m| m.to_loop.ring.oldest = 1,
    |m| m.to_bus.ring.held = 3,
    |m| m.to_loop.ring.held = 2,
    |m| m.loop_side.address = 32,
    |m| m.loop_side.talker = 4,
    |m| m.loop_side.source = 11,
    |m| m.loop_side.under_way = 1024,
    |m| m.loop_side.held = 1024,
    |m| (m.loop_side.holds, m.loop_side.held) = (true, 1024),
    |m| m.loop_side.poll.line = 8,
    |m| (m.loop_side.talker, m.loop_side.listener) = (1, true),
    |m| (m.loop_side.talker, m.loop_side.listener) = (2, true),
    |m| (m.loop_side.talker, m.loop_side.listener) = (3, true),
    |m| m.bus_side.address = 31,
    |m| m.bus_side.poll.line = 8,
    |m| m.bus_side.talker = 2,
    |m| (m.bus_side.talker, m.bus_side.listener) = (1, true),
    |m| (m.to_bus.ring.capacity, m.to_bus.ring.held) = (3, 3),
];

#[test]
fn a_misfit_is_refused_by_every_call_and_shows_nothing() {
    assert!(Small::new().fits());
    for misfit in MISFITS {
        let mut w = Small::new().left_by_loop(&[1]).left_by_bus(&[2]);
        w.orders(&[63]);
        w.commands(&[63]);
        misfit(&mut w.mailbox);
        let before = w;
        let answers = [
            w.frame(0, 50),
            w.command(0),
            w.byte(50, false),
            w.fetch(),
            w.bus_clear(),
            w.lines(),
            w.reset(),
        ];
        assert_eq!(answers, [Answer::Refused(2); 7], "{:?}", w.mailbox);
        assert_eq!([w.show(0), w.show(1)], [Part::EMPTY; 2]);
        assert_eq!(w, before);
    }
}

#[test]
fn a_recorded_size_that_create_refuses_is_a_misfit() {
    let (long, short) = ([0; LARGEST + 1], [0; 1]);
    let mut mailbox = Small::new().mailbox;
    for side in [0, 1] {
        let (to_bus, to_loop) = if side == 0 {
            (&long[..], &short[..])
        } else {
            (&short[..], &long[..])
        };
        mailbox.to_bus.ring.capacity = to_bus.len();
        mailbox.to_loop.ring.capacity = to_loop.len();
        assert_eq!(mailbox.reset(to_bus, to_loop), Answer::Refused(2));
    }
}

#[test]
fn every_call_is_total_on_fitting_states_and_keeps_them_fitting() {
    let mut draw = Draw(1);
    let mut frames = 0;
    for _ in 0..200_000 {
        let mut w = draw.world();
        assert!(w.fits());
        let before = w;
        let answer = match draw.below(8) {
            0 => w.echo(),
            1 => w.command(draw.below(128) as u32),
            2 => w.byte(draw.below(256) as u8, draw.flag()),
            3 => w.fetch(),
            4 => w.bus_clear(),
            5 => w.lines(),
            _ => w.whole_frame(draw.below(2048) as u32),
        };
        frames += usize::from(matches!(answer, Answer::Frame(_)));
        assert!(w.fits(), "{before:?}");
        match answer {
            Answer::Refused(4) | Answer::Lines { .. } => assert_eq!(w, before),
            Answer::Refused(_) => panic!("{answer:?} to {before:?}"),
            _ => {}
        }
    }
    assert!(frames > 50_000);
}

#[test]
fn a_held_frame_is_released_before_finishing_is_considered() {
    let mut w = Small::new();
    let side = &mut w.mailbox.loop_side;
    (side.talker, side.under_way) = (2, 50);
    (side.holds, side.held) = (true, 256 + 51);
    assert_eq!(w.frame(5, 66), Answer::Frame(256 + 51));
    assert!(!w.mailbox.loop_side.finishing);
    let side = w.mailbox.loop_side;
    assert_eq!((side.holds, side.held), (false, 0));
    assert_eq!(w.frame(5, 66), Answer::Frame(5 << 8 | 66));
    assert!(w.mailbox.loop_side.finishing);
}

#[test]
fn a_sending_starts_unfinished_whatever_was_before_it() {
    for ready in [96, 98] {
        let mut w = World::<1, 3>::new().left_by_bus(&[1, 2]);
        let side = &mut w.mailbox.loop_side;
        (side.talker, side.finishing, side.source) = (1, true, 5);
        w.frame(5, ready);
        assert!(matches!(w.echo(), Answer::Frame(0..=1023)));
    }
}

#[test]
fn not_ready_makes_data_finish_and_passes_a_status_byte() {
    for (talker, finishing) in [(0, false), (1, false), (2, true), (3, false)] {
        let mut w = Small::new();
        (w.mailbox.loop_side.talker, w.mailbox.loop_side.under_way) = (talker, 65);
        assert_eq!(w.frame(5, 66), Answer::Frame(5 << 8 | 66));
        assert_eq!(w.mailbox.loop_side.finishing, finishing);
    }
}

#[test]
fn a_command_forgets_the_frame_of_an_active_talker_alone() {
    for (talker, left) in [(0, 77), (1, 77), (2, 0), (3, 0)] {
        let mut w = Small::new();
        let side = &mut w.mailbox.loop_side;
        (side.talker, side.under_way, side.source) = (talker, 77, 5);
        (side.finishing, side.held) = (true, 88);
        w.commands(&[0]);
        let side = w.mailbox.loop_side;
        let forgotten = (side.under_way, side.finishing, side.source, side.held);
        assert_eq!(forgotten, (left, left != 0, 5, 0));
    }
}
