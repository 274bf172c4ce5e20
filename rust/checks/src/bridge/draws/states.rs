//! States with every field drawn from its range, most of which calls never reach.

use super::sizes::sizes;
use crate::bridge::rule::BREAK;
use crate::bridge::TheBridge;
use crate::random::Random;
use crate::runs::{cells, places, Drawn};
use model::{block, Bridge, Registers, Ring};

/// Characters that registers hold, and all but the last stores too; few so that they meet.
const CHARACTERS: [u8; 6] = [13, 10, 17, 19, 50, 0];

/// A state that fits its stores.
pub fn state(random: &mut Random) -> Drawn<TheBridge> {
    let (lens, margin) = sizes(random);
    let state = bridge(lens, margin, random);
    assert!(state.fits(lens[0], lens[1]));
    Drawn {
        block: block::pack(&state).to_vec(),
        state,
        one: receive(random, lens[0]),
        other: transmit(random, lens[1]),
    }
}

/// One of the characters.
fn character(byte: u8) -> u8 {
    CHARACTERS[usize::from(byte) % 5]
}

/// A receive store of characters, a break behind every fourth; half of all stores have any bits above
/// the mark.
fn receive(random: &mut Random, len: usize) -> Vec<u16> {
    let upper = random.one_of(&[0, 0xfe00]);
    let cell = |drawn: u16| {
        let [byte, bits] = drawn.to_le_bytes();
        let mark = if bits & 3 == 0 { BREAK } else { 0 };
        u16::from(character(byte)) | mark | drawn & upper
    };
    cells(random, len).into_iter().map(cell).collect()
}

/// A transmit store of characters, eight from each number drawn.
fn transmit(random: &mut Random, len: usize) -> Vec<u8> {
    let eight = |_| random.number().to_le_bytes();
    let drawn = (0..len).step_by(8).flat_map(eight).take(len);
    drawn.map(character).collect()
}

fn ring(random: &mut Random, len: usize) -> Ring {
    let [oldest, held] = places(random, len);
    Ring { oldest, held }
}

fn registers(random: &mut Random) -> Registers {
    let mut c = [0; 6].map(|_| random.one_of(&CHARACTERS));
    if c[4] == c[5] {
        c[5] ^= 1;
    }
    Registers {
        r00: random.one_of(&[9, 0, 1, 8]),
        r01: random.below(16) as u8,
        r02: random.one_of(&[5, 0, 1, 4]),
        r10: random.one_of(&[8, 12, 0, 4]),
        r11: random.one_of(&[8, 0]),
        c,
    }
}

/// A count at or before an edge of its bytes.
fn count(random: &mut Random) -> u32 {
    random.one_of(&[u32::MAX, 0, 0xffff, 0xff])
}

fn bridge(lens: [usize; 2], margin: u32, random: &mut Random) -> Bridge {
    let talker = random.below(4) as u8;
    Bridge {
        receive_len: lens[0],
        transmit_len: lens[1],
        margin: margin as usize,
        registers: registers(random),
        address: random.below(32) as u8,
        talker,
        listener: talker == 0 && random.flag(),
        remote_enabled: random.flag(),
        remote: random.flag(),
        under_way: random.below(1024) as u16,
        finishing: random.flag(),
        receive: ring(random, lens[0]),
        transmit: ring(random, lens[1]),
        holding: random.flag(),
        forbidden: random.flag(),
        stop_sent_last: random.flag(),
        break_seen: random.flag(),
        overrun_seen: random.flag(),
        key_seen: random.flag(),
        break_again: random.flag(),
        overrun_again: random.flag(),
        key_again: random.flag(),
        request: random.flag(),
        stored: count(random),
        lost: count(random),
        sent: count(random),
    }
}
