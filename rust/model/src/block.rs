//! The block of bytes in which the state travels between calls.
//!
//! The first byte is the version. Fields follow each other without gaps, numbers low byte first, a
//! flag as 1 or 0. A block of version 2 has the same fields and speaks of a receive store of bytes, so
//! it is none of ours.

use crate::{Bridge, Registers, Ring};

/// The one length a block has.
pub const LEN: usize = 56;

/// What the first byte of every block is.
pub const VERSION: u8 = 3;

/// The block of a state; lengths, margin and places are cut to two bytes.
#[inline]
pub fn pack(bridge: &Bridge) -> [u8; LEN] {
    let mut out = Writer::new();
    out.bytes([VERSION]);
    out.size(bridge.margin);
    for (len, ring) in [
        (bridge.receive_len, &bridge.receive),
        (bridge.transmit_len, &bridge.transmit),
    ] {
        out.size(len);
        out.size(ring.oldest);
        out.size(ring.held);
    }
    for count in [bridge.stored, bridge.lost, bridge.sent] {
        out.bytes(count.to_le_bytes());
    }
    out.bytes([bridge.address, bridge.talker]);
    out.flags([bridge.listener]);
    out.bytes(bridge.under_way.to_le_bytes());
    out.flags([bridge.finishing]);
    let r = &bridge.registers;
    out.bytes([r.r00, r.r01, r.r02, r.r10, r.r11]);
    out.bytes(r.c);
    out.flags([bridge.holding, bridge.forbidden, bridge.stop_sent_last]);
    out.flags([bridge.break_seen, bridge.overrun_seen, bridge.key_seen]);
    out.flags([bridge.break_again, bridge.overrun_again, bridge.key_again]);
    out.flags([bridge.request, bridge.remote_enabled, bridge.remote]);
    out.block
}

/// The state that this block means: none unless the block has its length and is exactly what
/// `pack` gives for that state, so the version is ours and every flag is 0 or 1. Whether the state fits is not asked here.
#[inline]
pub fn unpack(block: &[u8]) -> Option<Bridge> {
    let mut from = Reader::new(block.try_into().ok()?);
    let version = from.byte();
    // Fields of a literal are read in the order in which they are written here.
    let bridge = Bridge {
        margin: from.size(),
        receive_len: from.size(),
        receive: from.ring(),
        transmit_len: from.size(),
        transmit: from.ring(),
        stored: u32::from_le_bytes(from.bytes()),
        lost: u32::from_le_bytes(from.bytes()),
        sent: u32::from_le_bytes(from.bytes()),
        address: from.byte(),
        talker: from.byte(),
        listener: from.flag(),
        under_way: u16::from_le_bytes(from.bytes()),
        finishing: from.flag(),
        registers: from.registers(),
        holding: from.flag(),
        forbidden: from.flag(),
        stop_sent_last: from.flag(),
        break_seen: from.flag(),
        overrun_seen: from.flag(),
        key_seen: from.flag(),
        break_again: from.flag(),
        overrun_again: from.flag(),
        key_again: from.flag(),
        request: from.flag(),
        remote_enabled: from.flag(),
        remote: from.flag(),
    };
    (version == VERSION && from.flags_sound).then_some(bridge)
}

/// A block that is being written, from its front.
struct Writer {
    block: [u8; LEN],
    place: usize,
}

impl Writer {
    fn new() -> Writer {
        Writer {
            block: [0; LEN],
            place: 0,
        }
    }

    #[inline(always)]
    fn bytes<const N: usize>(&mut self, bytes: [u8; N]) {
        self.block[self.place..self.place + N].copy_from_slice(&bytes);
        self.place += N;
    }

    #[inline(always)]
    fn size(&mut self, size: usize) {
        self.bytes((size as u16).to_le_bytes());
    }

    #[inline(always)]
    fn flags<const N: usize>(&mut self, flags: [bool; N]) {
        self.bytes(flags.map(u8::from));
    }
}

/// A block that is being read, from its front.
struct Reader<'a> {
    block: &'a [u8; LEN],
    place: usize,
    /// Whether every flag read so far was 0 or 1.
    flags_sound: bool,
}

impl Reader<'_> {
    fn new(block: &[u8; LEN]) -> Reader<'_> {
        Reader {
            block,
            place: 0,
            flags_sound: true,
        }
    }

    #[inline(always)]
    fn bytes<const N: usize>(&mut self) -> [u8; N] {
        let mut bytes = [0; N];
        bytes.copy_from_slice(&self.block[self.place..self.place + N]);
        self.place += N;
        bytes
    }

    #[inline(always)]
    fn byte(&mut self) -> u8 {
        let [byte] = self.bytes();
        byte
    }

    #[inline(always)]
    fn size(&mut self) -> usize {
        u16::from_le_bytes(self.bytes()).into()
    }

    #[inline(always)]
    fn flag(&mut self) -> bool {
        let byte = self.byte();
        self.flags_sound &= byte <= 1;
        byte == 1
    }

    #[inline(always)]
    fn registers(&mut self) -> Registers {
        Registers {
            r00: self.byte(),
            r01: self.byte(),
            r02: self.byte(),
            r10: self.byte(),
            r11: self.byte(),
            c: self.bytes(),
        }
    }

    #[inline(always)]
    fn ring(&mut self) -> Ring {
        Ring {
            oldest: self.size(),
            held: self.size(),
        }
    }
}

#[cfg(test)]
mod tests {
    use super::*;

    /// A block with another value at every place behind the version that is not a flag.
    fn numbered() -> [u8; LEN] {
        let mut block = [0; LEN];
        for (place, byte) in block.iter_mut().enumerate() {
            let flag = matches!(place, 29 | 32 | 44..=55);
            *byte = if flag { place as u8 & 1 } else { place as u8 };
        }
        block[0] = VERSION;
        block
    }

    #[test]
    fn every_place_is_read_and_written_back() {
        let block = numbered();
        let bridge = unpack(&block).expect("every flag is 0 or 1");
        assert_eq!(pack(&bridge), block);
        assert_eq!((bridge.margin, bridge.registers.r11), (0x0201, 37));
        assert_eq!((bridge.registers.c[5], bridge.address), (43, 27));
        assert_eq!((bridge.talker, bridge.under_way), (28, 0x1f1e));
        assert!(bridge.listener && !bridge.finishing && !bridge.remote_enabled && bridge.remote);
        let ring = |oldest, held| Ring { oldest, held };
        let receive = (bridge.receive_len, bridge.receive);
        assert_eq!(receive, (0x0403, ring(0x0605, 0x0807)));
        let transmit = (bridge.transmit_len, bridge.transmit);
        assert_eq!(transmit, (0x0a09, ring(0x0c0b, 0x0e0d)));
        assert_eq!(bridge.sent, 0x1a19_1817);
        assert!(!bridge.holding && bridge.forbidden && !bridge.stop_sent_last);
    }

    #[test]
    fn a_spoilt_flag_another_version_or_another_length_is_no_state() {
        let mut spoilt = 0;
        for place in 0..LEN {
            let mut block = numbered();
            block[place] = 4;
            let back = unpack(&block).map(|bridge| pack(&bridge));
            assert!(back.is_none() || back == Some(block));
            spoilt += usize::from(back.is_none());
        }
        assert_eq!(spoilt, 15);
        for version in (0..=255).filter(|&version| version != VERSION) {
            let mut block = numbered();
            block[0] = version;
            assert_eq!(unpack(&block), None);
        }
        assert_eq!(unpack(&[0; LEN - 1]), None);
        assert_eq!(unpack(&[0; LEN + 1]), None);
        println!("{spoilt} of {LEN} places are the version and flags");
    }
}
