//! The block of a state, and the calls as the C functions take them.

use crate::draw::Draw;
use crate::world::{World, BUS};
use raftershim_mailbox_model::block::{pack, unpack, LEN, VERSION};
use raftershim_mailbox_model::{boundary, Answer, Mailbox};

/// The places of the flags.
const FLAGS: [usize; 17] = [
    19, 20, 26, 27, 28, 29, 30, 31, 32, 33, 34, 35, 36, 37, 38, 39, 40,
];

/// A block with another value at every place behind the version that is not a flag.
fn numbered() -> [u8; LEN] {
    let mut block = [0; LEN];
    for (place, byte) in block.iter_mut().enumerate() {
        *byte = place as u8;
    }
    for place in FLAGS {
        block[place] = u8::from(place % 3 == 0);
    }
    block[0] = VERSION;
    block
}

#[test]
fn every_place_is_read_and_written_back() {
    let block = numbered();
    let m = unpack(&block).expect("every flag is 0 or 1");
    assert_eq!(pack(&m), block);
    let ring = |ring: raftershim_mailbox_model::Ring| (ring.capacity, ring.oldest, ring.held);
    assert_eq!(ring(m.to_bus.ring), (0x0201, 0x0403, 0x0605));
    assert_eq!(ring(m.to_loop.ring), (0x0807, 0x0a09, 0x0c0b));
    let (l, b) = (m.loop_side, m.bus_side);
    assert_eq!((l.under_way, l.held), (0x0e0d, 0x100f));
    assert_eq!(
        (l.address, l.talker, l.source, l.poll.line),
        (17, 18, 21, 22)
    );
    assert_eq!((b.address, b.talker, b.poll.line), (23, 24, 25));
}

/// Each flag by its place.
fn flags(m: &Mailbox) -> [bool; 17] {
    let (l, b, bus, way) = (m.loop_side, m.bus_side, m.to_bus.news, m.to_loop.news);
    let first = [l.listener, l.finishing, b.listener];
    let news = [
        bus.request,
        bus.available,
        bus.again,
        way.request,
        way.available,
        way.again,
    ];
    let last = [l.not_ready, l.holds, l.poll.on, l.poll.sense];
    let bus = [b.serial_poll, b.status_read, b.configuring, b.poll.on];
    let all: Vec<bool> = [&first[..], &news, &last, &bus].concat();
    all.try_into().expect("17 flags")
}

#[test]
fn every_flag_has_its_place() {
    for (index, place) in FLAGS.into_iter().enumerate() {
        let mut block = numbered();
        FLAGS.iter().for_each(|&flag| block[flag] = 0);
        block[place] = 1;
        let m = unpack(&block).expect("every flag is 0 or 1");
        assert_eq!(flags(&m), std::array::from_fn(|i| i == index));
    }
}

#[test]
fn a_spoilt_flag_another_version_or_another_length_is_no_state() {
    let mut spoilt = Vec::new();
    for place in 0..LEN {
        let mut block = numbered();
        block[place] = 2;
        let back = unpack(&block).map(|mailbox| pack(&mailbox));
        assert!(back.is_none() || back == Some(block));
        spoilt.extend(back.is_none().then_some(place));
    }
    assert_eq!(spoilt, [&[0], &FLAGS[..]].concat());
    for version in (0..=255).filter(|&version| version != VERSION) {
        let mut block = numbered();
        block[0] = version;
        assert_eq!(unpack(&block), None);
    }
    assert_eq!(unpack(&numbered()[..LEN - 1]), None);
    assert_eq!(unpack(&[&numbered()[..], &[0]].concat()), None);
}

#[test]
fn any_fitting_state_is_had_back() {
    let mut draw = Draw(2);
    for _ in 0..10_000 {
        let mailbox = draw.world().mailbox;
        assert_eq!(unpack(&pack(&mailbox)), Some(mailbox));
    }
}

#[test]
fn answers_are_one_number() {
    let lines = |srq, poll| Answer::Lines { srq, poll };
    for (answer, word) in [
        (Answer::Done, 0),
        (Answer::None, 1 << 16),
        (
            Answer::Byte {
                byte: 9,
                end: false,
            },
            2 << 16 | 9,
        ),
        (
            Answer::Byte {
                byte: 255,
                end: true,
            },
            2 << 16 | 511,
        ),
        (Answer::Frame(2047), 3 << 16 | 2047),
        (Answer::Refused(13), 4 << 16 | 13),
        (lines(false, 0), 5 << 16),
        (lines(true, 128), 5 << 16 | 384),
    ] {
        assert_eq!(boundary::word(answer), word);
    }
}

/// A mailbox behind the boundary.
struct Lent {
    block: [u8; LEN],
    to_bus: [u16; 2],
    to_loop: [u16; 1],
}

#[test]
fn each_call_is_the_call_of_its_name() {
    let Lent {
        mut block,
        mut to_bus,
        mut to_loop,
    } = Lent {
        block: [7; LEN],
        to_bus: [0xFFFF; 2],
        to_loop: [0xFFFF; 1],
    };
    let bus = u32::from(BUS);
    assert_eq!(boundary::create(&mut block, &to_bus, &to_loop, bus), 0);
    assert_eq!(block, pack(&World::<2, 1>::new().mailbox));
    assert_eq!(
        boundary::loop_frame(&mut block, &mut to_bus, &to_loop, 0x42f),
        3 << 16 | 0x42f
    );
    assert_eq!(
        boundary::loop_frame(&mut block, &mut to_bus, &to_loop, 0x209),
        3 << 16 | 0x209
    );
    assert_eq!(to_bus, [0x109, 0xFFFF]);
    assert_eq!(
        boundary::bus_lines(&block, &to_bus, &to_loop),
        5 << 16 | 256
    );
    assert_eq!(boundary::show(&block, &to_bus, &to_loop, 0), 1);
    assert_eq!(
        boundary::bus_command(&mut block, &to_bus, &to_loop, 64 + bus),
        0
    );
    assert_eq!(
        boundary::bus_fetch(&mut block, &to_bus, &to_loop),
        2 << 16 | 0x109
    );
    assert_eq!(boundary::bus_fetch(&mut block, &to_bus, &to_loop), 1 << 16);
    assert_eq!(
        boundary::bus_command(&mut block, &to_bus, &to_loop, 32 + bus),
        0
    );
    assert_eq!(
        boundary::bus_byte(&mut block, &to_bus, &mut to_loop, 5, 1 << 31),
        0
    );
    assert_eq!(to_loop, [0x105]);
    assert_eq!(
        boundary::bus_byte(&mut block, &to_bus, &mut to_loop, 5, 0),
        4 << 16 | 4
    );
    assert_eq!(boundary::bus_clear(&mut block, &to_bus, &to_loop), 0);
    assert_eq!(
        boundary::bus_byte(&mut block, &to_bus, &mut to_loop, 6, 0),
        0
    );
    assert_eq!(boundary::show(&block, &to_bus, &to_loop, 1), 1);
    assert_eq!(boundary::reset(&mut block, &to_bus, &to_loop), 0);
    assert_eq!(block, pack(&World::<2, 1>::new().mailbox));
}

#[test]
fn a_block_that_is_no_state_is_refused_and_shows_nothing() {
    for len in [0, LEN - 1, LEN, LEN + 1] {
        let (mut block, mut to_bus, mut to_loop) = (vec![2; len], [0; 2], [0; 1]);
        let (block, to_bus, to_loop) = (&mut block[..], &mut to_bus, &mut to_loop);
        let answers = [
            boundary::reset(block, to_bus, to_loop),
            boundary::loop_frame(block, to_bus, to_loop, 9999),
            boundary::bus_command(block, to_bus, to_loop, 999),
            boundary::bus_byte(block, to_bus, to_loop, 5, 0),
            boundary::bus_fetch(block, to_bus, to_loop),
            boundary::bus_clear(block, to_bus, to_loop),
            boundary::bus_lines(block, to_bus, to_loop),
        ];
        assert_eq!(answers, [4 << 16 | 2; 7]);
        assert_eq!(boundary::show(block, to_bus, to_loop, 0), 0);
        assert_eq!(block, vec![2; len]);
        let created = boundary::create(block, to_bus, to_loop, 30);
        assert_eq!(created, if len == LEN { 0 } else { 4 << 16 | 1 });
    }
}
