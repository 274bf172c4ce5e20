//! Each refusal comes from the call and for the cause that the rules name, and changes nothing.

use super::*;
use raftershim::{raw, Answer, Answered, BadSize, Refusal, SavedMailbox, Size, MAILBOX_BLOCK_LEN};
use std::cell::Cell;
use std::rc::Rc;

type Call<B, L> = fn(&mut Mailbox<B, L>) -> Answered;

/// Every call that may be refused, with arguments that a fitting state takes.
fn calls<B, L>() -> [(&'static str, Call<B, L>); 7]
where
    B: AsRef<[u16]> + AsMut<[u16]>,
    L: AsRef<[u16]> + AsMut<[u16]>,
{
    [
        ("reset", |mailbox| mailbox.reset().map(Answer::from)),
        ("loop_frame", |mailbox| {
            mailbox.loop_frame(Frame::SEND_DATA).map(Answer::from)
        }),
        ("bus_command", |mailbox| {
            mailbox.bus_command(BusCommand::UNL).map(Answer::from)
        }),
        ("bus_byte", |mailbox| {
            mailbox.bus_byte(50, false).map(Answer::from)
        }),
        ("bus_fetch", |mailbox| mailbox.bus_fetch().map(Answer::from)),
        ("bus_clear", |mailbox| mailbox.bus_clear().map(Answer::from)),
        ("bus_lines", |mailbox| mailbox.bus_lines().map(Answer::from)),
    ]
}

/// What was saved, with one byte changed.
fn damaged(saved: SavedMailbox, place: usize, value: u8) -> Result<SavedMailbox, Refusal> {
    let mut block = *saved.as_bytes();
    block[place] = value;
    SavedMailbox::try_from(block.as_slice())
}

#[test]
fn the_archive_has_blocks_of_this_length() {
    // SAFETY: it takes nothing.
    let len = unsafe { raw::raftershim_mailbox_block_len() };
    assert_eq!(len, MAILBOX_BLOCK_LEN as u64);
}

fn create(to_bus: usize, to_loop: usize, address: u32) -> Result<(), BadSize> {
    let (to_bus, to_loop) = (vec![0; to_bus], vec![0; to_loop]);
    Mailbox::create(Ways { to_bus, to_loop }, address).map(|_| ())
}

#[test]
fn sizes_and_addresses_at_their_bounds_are_taken() {
    for (to_bus, to_loop, address) in [(1, 1, 0), (32768, 1, 30), (1, 32768, 15)] {
        assert_eq!(create(to_bus, to_loop, address), Ok(()));
    }
}

#[test]
fn what_is_broken_is_named_with_its_limits() {
    let broken = [
        ((0, 1, 7), Size::ToBus, 0, 1, 32768),
        ((32769, 1, 7), Size::ToBus, 32769, 1, 32768),
        ((1, 0, 7), Size::ToLoop, 0, 1, 32768),
        ((1, 32769, 31), Size::ToLoop, 32769, 1, 32768),
        ((1, 1, 31), Size::BusAddress, 31, 0, 30),
        ((1, 1, u32::MAX), Size::BusAddress, u32::MAX as usize, 0, 30),
    ];
    for ((to_bus, to_loop, address), which, given, least, most) in broken {
        let bad = create(to_bus, to_loop, address).unwrap_err();
        let found = (bad.which, bad.given, bad.least, bad.most);
        assert_eq!(found, (which, given, least, most));
        assert_eq!(Refusal::from(bad), Refusal::SIZES);
        let said = format!("refusal 1: {which} is {given}, and it must be {least} to {most}");
        assert_eq!(bad.to_string(), said);
    }
    let named = [Size::ToBus, Size::ToLoop, Size::BusAddress].map(|size| size.to_string());
    let said = "the length of the store to the bus, the length of the store to the loop, \
                the address on the bus";
    assert_eq!(named.join(", "), said);
}

#[test]
fn a_fitting_mailbox_is_refused_nowhere() {
    for (name, call) in calls() {
        assert!(call(&mut small()).is_ok(), "{name}");
    }
    assert!(small().state().is_ok());
}

#[test]
fn damage_is_refused_when_the_mailbox_is_put_together() {
    let mut held = small();
    leave_for_loop(&mut held, &[50]);
    let (saved, ways) = held.into_parts();
    // A flag would be neither 0 nor 1, the bus address above 30, the recorded length another one.
    for (place, value) in [(26, 2), (23, 31), (7, 4)] {
        let damaged = damaged(saved, place, value).unwrap();
        let refused = Mailbox::restore(damaged, ways).unwrap_err();
        assert_eq!(refused, Refusal::MISFIT, "byte {place}");
    }
    let whole = Mailbox::restore(saved, ways).unwrap();
    assert_eq!(shown(&whole, Way::ToLoop), [256 + 50]);
}

#[test]
fn a_saved_state_of_other_stores_is_refused() {
    let (saved, Ways { to_bus, to_loop }) = small().into_parts();
    let exchanged = Ways {
        to_bus: to_loop,
        to_loop: to_bus,
    };
    let refused = Mailbox::restore(saved, exchanged).err();
    assert_eq!(refused, Some(Refusal::MISFIT));
    let shorter = Ways {
        to_bus,
        to_loop: [0; 0],
    };
    let refused = Mailbox::restore(saved, shorter).err();
    assert_eq!(refused, Some(Refusal::MISFIT));
}

#[test]
fn bytes_of_another_version_or_length_are_not_taken() {
    let saved = small().saved();
    assert_eq!((saved.version(), SavedMailbox::VERSION), (129, 129));
    for version in (0..=u8::MAX).filter(|&version| version != SavedMailbox::VERSION) {
        assert_eq!(damaged(saved, 0, version), Err(Refusal::MISFIT));
    }
    for len in 0..MAILBOX_BLOCK_LEN {
        let short = &saved.as_bytes()[..len];
        assert_eq!(SavedMailbox::try_from(short), Err(Refusal::MISFIT));
    }
}

#[test]
fn putting_together_judges_as_every_call_does() {
    // Every byte of a fresh block in turn gets every value: what is put together is refused
    // nowhere, and putting together changes nothing.
    let saved = small().saved();
    let mut misfits = 0;
    for place in 1..MAILBOX_BLOCK_LEN {
        for value in 0..=u8::MAX {
            let damaged = damaged(saved, place, value).unwrap();
            match Mailbox::restore(damaged, small_ways()) {
                Err(refusal) => {
                    assert_eq!(refusal, Refusal::MISFIT);
                    misfits += 1;
                }
                Ok(mailbox) => {
                    assert_eq!(mailbox.saved(), damaged);
                    for (name, call) in calls() {
                        let answered = call(&mut mailbox.clone());
                        assert!(answered.is_ok(), "{name}, byte {place} as {value}");
                    }
                }
            }
        }
    }
    assert!(misfits > 0 && misfits < MAILBOX_BLOCK_LEN * 256);
}

/// A store that lends as many of its cells as its owner says at the moment.
struct Shrinking(Vec<u16>, Rc<Cell<usize>>);

impl AsRef<[u16]> for Shrinking {
    fn as_ref(&self) -> &[u16] {
        &self.0[..self.1.get()]
    }
}

impl AsMut<[u16]> for Shrinking {
    fn as_mut(&mut self) -> &mut [u16] {
        &mut self.0[..self.1.get()]
    }
}

#[test]
fn a_store_that_lends_another_length_is_refused_everywhere() {
    let length = Rc::new(Cell::new(4));
    let to_loop = Shrinking(vec![0; 5], Rc::clone(&length));
    let to_bus = [0; 3];
    let mut mailbox = Mailbox::create(Ways { to_bus, to_loop }, 7).unwrap();
    leave_for_loop(&mut mailbox, &[50]);
    for other in [0, 3, 5] {
        length.set(other);
        for (name, call) in calls() {
            assert_eq!(call(&mut mailbox), Err(Refusal::MISFIT), "{name}");
        }
        assert_eq!(mailbox.state(), Err(Refusal::MISFIT));
        assert_eq!(mailbox.room(Way::ToBus), Err(Refusal::MISFIT));
        assert_eq!(shown(&mailbox, Way::ToLoop), []);
    }
    length.set(4);
    assert_eq!(shown(&mailbox, Way::ToLoop), [256 + 50]);
}

#[test]
fn a_listener_without_room_is_busy_on_both_sides() {
    let mut mailbox = small();
    leave_for_loop(&mut mailbox, b"12.");
    leave_for_bus(&mut mailbox, b"1234");
    let full = mailbox.clone();
    for (answered, place) in [
        (mailbox.bus_byte(b'5', true).map(Answer::from), "the bus"),
        (
            mailbox.loop_frame(Frame::end_byte(b'5')).map(Answer::from),
            "the loop",
        ),
    ] {
        assert_eq!(answered, Err(Refusal::BUSY), "{place}");
    }
    assert_eq!(mailbox, full);
    // When the other side has fetched one, the same is taken.
    command(&mut mailbox, 64 + 7);
    assert_eq!(mailbox.bus_fetch(), Ok(Some(byte(b'1', false))));
    // Three bytes wait for the loop, so the frame gets the service bit.
    frame_taken(&mut mailbox, (2, b'5'), (3, b'5'));
    frame_taken(&mut mailbox, (4, 65), (4, 65));
    frame_taken(&mut mailbox, (5, 96), (1, b'1'));
    leave_for_loop(&mut mailbox, b"5");
    assert_eq!(mailbox.room(Way::ToLoop), Ok(0));
    assert_eq!(mailbox.room(Way::ToBus), Ok(0));
}
