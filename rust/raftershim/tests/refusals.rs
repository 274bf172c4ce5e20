//! Each refusal comes from the call and for the cause that the rules name, and changes nothing.

use raftershim::{
    raw, Address, Answer, Answered, BadSize, Bridge, Frame, HeldByte, LineByte, Refusal, Register,
    Saved, Side, Size, Stores, BLOCK_LEN,
};
use std::cell::Cell;
use std::rc::Rc;

type Small = Bridge<[u16; 8], [u8; 3]>;
type Call<R, T> = fn(&mut Bridge<R, T>) -> Answered;

fn small() -> Small {
    Bridge::create(small_stores(), 3).unwrap()
}

fn small_stores() -> Stores<[u16; 8], [u8; 3]> {
    Stores {
        receive: [0; 8],
        transmit: [0; 3],
    }
}

/// The same when it owes a stop, so that a line byte is next.
fn owing() -> Small {
    let mut bridge = small();
    for byte in *b"12345" {
        assert_eq!(bridge.line_byte(byte), Ok(LineByte::Stored));
    }
    bridge
}

/// The call is refused for this reason, and the bridge is as it was.
fn refused<A>(
    mut bridge: Small,
    refusal: Refusal,
    call: impl FnOnce(&mut Small) -> Result<A, Refusal>,
) {
    let was = bridge.clone();
    assert_eq!(call(&mut bridge).err(), Some(refusal));
    assert_eq!(bridge, was);
}

/// Every call that may be refused, with arguments that a fitting state takes.
fn calls<R, T>() -> [(&'static str, Call<R, T>); 8]
where
    R: AsRef<[u16]> + AsMut<[u16]>,
    T: AsRef<[u8]> + AsMut<[u8]>,
{
    [
        ("reset", |bridge| bridge.reset().map(Answer::from)),
        ("write_register", |bridge| {
            bridge.write_register(Register::R11, 8).map(Answer::from)
        }),
        ("line_byte", |bridge| bridge.line_byte(50).map(Answer::from)),
        ("line_break", |bridge| bridge.line_break().map(Answer::from)),
        ("key", |bridge| bridge.key().map(Answer::from)),
        ("ask_line_byte", |bridge| {
            let next = bridge.ask_line_byte()?;
            Ok(next.map(|next| next.byte()).into())
        }),
        ("take", |bridge| {
            let next = bridge.ask_line_byte()?;
            next.map_or(Ok(()), |next| next.take()).map(Answer::from)
        }),
        ("loop_frame", |bridge| {
            bridge.loop_frame(Frame::data_byte(0)).map(Answer::from)
        }),
    ]
}

/// What was saved, with one byte changed.
fn damaged(saved: Saved, place: usize, value: u8) -> Result<Saved, Refusal> {
    let mut block = *saved.as_bytes();
    block[place] = value;
    Saved::try_from(block.as_slice())
}

#[test]
fn the_archive_has_blocks_of_this_length() {
    // SAFETY: it takes nothing.
    let len = unsafe { raw::raftershim_block_len() };
    assert_eq!(len, BLOCK_LEN as u64);
}

fn create(receive: usize, transmit: usize, margin: u32) -> Result<(), BadSize> {
    let (receive, transmit) = (vec![0; receive], vec![0; transmit]);
    Bridge::create(Stores { receive, transmit }, margin).map(|_| ())
}

#[test]
fn sizes_at_their_bounds_are_taken() {
    for (receive, transmit, margin) in [(8, 3, 3), (4, 3, 1), (2050, 32768, 1024), (32768, 3, 1)] {
        assert_eq!(create(receive, transmit, margin), Ok(()));
    }
}

#[test]
fn a_broken_size_is_named_with_its_limits() {
    let broken = [
        ((7, 3, 3), Size::Receive, 7, 8, 32768),
        ((8, 2, 3), Size::Transmit, 2, 3, 32768),
        ((8, 3, 0), Size::Margin, 0, 1, 1024),
        ((32768, 3, 1025), Size::Margin, 1025, 1, 1024),
        ((32769, 3, 1), Size::Receive, 32769, 4, 32768),
        ((8, 32769, 3), Size::Transmit, 32769, 3, 32768),
        ((0, 0, 1), Size::Receive, 0, 4, 32768),
        ((8, 3, u32::MAX), Size::Margin, u32::MAX as usize, 1, 1024),
    ];
    for ((receive, transmit, margin), which, given, least, most) in broken {
        let bad = create(receive, transmit, margin).unwrap_err();
        let found = (bad.which, bad.given, bad.least, bad.most);
        assert_eq!(found, (which, given, least, most));
        assert_eq!(Refusal::from(bad), Refusal::SIZES);
        let said = format!("refusal 1: {which} is {given}, and it must be {least} to {most}");
        assert_eq!(bad.to_string(), said);
    }
}

#[test]
fn a_fitting_bridge_is_refused_nowhere() {
    for (name, call) in calls() {
        assert!(call(&mut owing()).is_ok(), "{name}");
    }
    assert!(owing().state().is_ok());
}

#[test]
fn damage_is_refused_when_the_bridge_is_put_together() {
    let mut held = small();
    assert_eq!(held.line_byte(50), Ok(LineByte::Stored));
    let (saved, stores) = held.into_parts();
    // A flag would be neither 0 nor 1, the address above 31, the recorded length another one.
    for (place, value) in [(29, 2), (27, 32), (3, 9)] {
        let damaged = damaged(saved, place, value).unwrap();
        let refused = Bridge::restore(damaged, stores).unwrap_err();
        assert_eq!(refused, Refusal::MISFIT, "byte {place}");
    }
    let whole = Bridge::restore(saved, stores).unwrap();
    assert!(whole.show_receive().eq([50].map(HeldByte::from)));
}

#[test]
fn a_saved_state_of_other_stores_is_refused() {
    let (saved, Stores { receive, transmit }) = small().into_parts();
    let longer = Stores {
        receive: [0; 9],
        transmit,
    };
    assert_eq!(Bridge::restore(saved, longer).err(), Some(Refusal::MISFIT));
    let shorter = Stores {
        receive,
        transmit: [0; 0],
    };
    assert_eq!(Bridge::restore(saved, shorter).err(), Some(Refusal::MISFIT));
}

#[test]
fn bytes_of_another_version_or_length_are_not_taken() {
    let saved = small().saved();
    assert_eq!(saved.version(), Saved::VERSION);
    for version in (0..=u8::MAX).filter(|&version| version != Saved::VERSION) {
        assert_eq!(damaged(saved, 0, version), Err(Refusal::MISFIT));
    }
    for len in 0..BLOCK_LEN {
        let short = &saved.as_bytes()[..len];
        assert_eq!(Saved::try_from(short), Err(Refusal::MISFIT));
    }
}

#[test]
fn putting_together_judges_as_every_call_does() {
    // Every byte of a fresh block in turn gets every value: what is put together is refused
    // nowhere, and putting together changes nothing.
    let saved = small().saved();
    let mut misfits = 0;
    for place in 1..BLOCK_LEN {
        for value in 0..=u8::MAX {
            let damaged = damaged(saved, place, value).unwrap();
            match Bridge::restore(damaged, small_stores()) {
                Err(refusal) => {
                    assert_eq!(refusal, Refusal::MISFIT);
                    misfits += 1;
                }
                Ok(bridge) => {
                    assert_eq!(bridge.saved(), damaged);
                    for (name, call) in calls() {
                        let answered = call(&mut bridge.clone());
                        assert!(answered.is_ok(), "{name}, byte {place} as {value}");
                    }
                }
            }
        }
    }
    assert!(misfits > 0 && misfits < BLOCK_LEN * 256);
}

/// A store that lends as many of its cells as its owner says at the moment.
struct Shrinking(Vec<u16>, Rc<Cell<usize>>);

impl AsRef<[u16]> for Shrinking {
    fn as_ref(&self) -> &[u16] {
        &self.0[..self.1.get()]
    }
}

impl AsMut<[u16]> for Shrinking {
    fn as_mut(&mut self) -> &mut [u16] {
        &mut self.0[..self.1.get()]
    }
}

#[test]
fn a_store_that_lends_another_length_is_refused_everywhere() {
    let length = Rc::new(Cell::new(8));
    let receive = Shrinking(vec![0; 9], Rc::clone(&length));
    let transmit = [0; 3];
    let mut bridge = Bridge::create(Stores { receive, transmit }, 3).unwrap();
    assert_eq!(bridge.line_byte(50), Ok(LineByte::Stored));
    for other in [0, 7, 9] {
        length.set(other);
        for (name, call) in calls() {
            assert_eq!(call(&mut bridge), Err(Refusal::MISFIT), "{name}");
        }
        assert_eq!(bridge.state(), Err(Refusal::MISFIT));
        assert_eq!(bridge.room(Side::Transmit), Err(Refusal::MISFIT));
        assert_eq!(bridge.show_receive().len(), 0);
        assert!(bridge.show_transmit().is_empty());
    }
    length.set(8);
    assert!(bridge.show_receive().eq([50].map(HeldByte::from)));
    assert_eq!(bridge.state().map(|state| state.stored), Ok(1));
}

#[test]
fn a_listener_without_room_is_busy() {
    let mut bridge = small();
    let adding = Register::R10_ADD_LINE_END;
    bridge.write_register(Register::R10, adding).unwrap();
    for frame in [
        Frame::auto_address(Address::FIRST),
        Frame::listen_address(Address::FIRST),
    ] {
        bridge.loop_frame(frame).unwrap();
    }
    let (data, end_byte) = (Frame::data_byte(65), Frame::end_byte(66));
    assert_eq!(bridge.loop_frame(data), Ok(data));
    refused(bridge.clone(), Refusal::BUSY, |b| b.loop_frame(end_byte));
    let next = bridge.ask_line_byte().unwrap().unwrap();
    assert_eq!((next.byte(), next.take()), (65, Ok(())));
    assert_eq!(bridge.loop_frame(end_byte), Ok(end_byte));
}

#[test]
fn register_writes_are_refused_by_value_bit_and_character() {
    let writes = [
        (Register::R01, 16, Refusal::VALUE_TOO_LARGE),
        (Register::R00, 2, Refusal::BIT_NOT_CARRIED),
        (Register::R11, 4, Refusal::BIT_NOT_CARRIED),
        (Register::C04, 19, Refusal::GO_IS_STOP),
        (Register::C05, 17, Refusal::GO_IS_STOP),
    ];
    for (register, value, refusal) in writes {
        refused(small(), refusal, |b| b.write_register(register, value));
        refused(holding(), refusal, |b| b.write_register(register, value));
    }
}

/// A bridge that holds a byte from the line.
fn holding() -> Small {
    let mut bridge = small();
    assert_eq!(bridge.line_byte(50), Ok(LineByte::Stored));
    bridge
}

/// The registers that say how a line is read, and values that they take.
const OF_THE_RULE: [(Register, &[u8]); 3] = [
    (Register::R10, &[0, 4, 8, 12]),
    (Register::C00, &[13, 0, 255]),
    (Register::C01, &[10, 0, 255]),
];

#[test]
fn no_rule_changes_under_a_held_line() {
    for (register, values) in OF_THE_RULE {
        for &value in values {
            refused(holding(), Refusal::HELD_BYTES, |b| {
                b.write_register(register, value)
            });
            assert_eq!(small().write_register(register, value), Ok(()));
        }
    }
    refused(holding(), Refusal::VALUE_TOO_LARGE, |b| {
        b.write_register(Register::R10, 16)
    });
    refused(holding(), Refusal::BIT_NOT_CARRIED, |b| {
        b.write_register(Register::R10, 2)
    });
    for register in Register::ALL {
        let of_the_rule = OF_THE_RULE.iter().any(|(of, _)| *of == register);
        let written = holding().write_register(register, 0);
        assert_eq!(written.is_err(), of_the_rule, "{register}");
    }
}

#[test]
fn a_rule_changes_when_all_is_read() {
    let mut bridge = holding();
    for frame in [
        Frame::auto_address(Address::FIRST),
        Frame::talk_address(Address::FIRST),
    ] {
        bridge.loop_frame(frame).unwrap();
    }
    let find = Register::R10_FIND_LINE_END;
    refused(bridge.clone(), Refusal::HELD_BYTES, |b| {
        b.write_register(Register::R10, find)
    });
    // The byte is under way, and no longer held.
    let sent = bridge.loop_frame(Frame::SEND_DATA);
    assert_eq!(sent, Ok(Frame::data_byte(50)));
    assert_eq!(bridge.write_register(Register::R10, find), Ok(()));
    // Bytes that wait for the end of their line are held.
    for byte in [51, 13] {
        assert_eq!(bridge.line_byte(byte), Ok(LineByte::Stored));
    }
    let over = bridge.loop_frame(Frame::data_byte(50));
    assert_eq!(over, Ok(Frame::END_OF_TRANSMISSION));
    refused(bridge.clone(), Refusal::HELD_BYTES, |b| {
        b.write_register(Register::C00, 59)
    });
    bridge.loop_frame(Frame::DEVICE_CLEAR).unwrap();
    assert_eq!(bridge.write_register(Register::C00, 59), Ok(()));
}
