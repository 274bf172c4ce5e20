//! The block of bytes in which the state travels between calls.
//!
//! The first byte is the version. Fields follow each other without gaps, numbers low byte first, a
//! flag as 1 or 0.

use crate::state::Mailbox;

/// The one length a block has.
pub const LEN: usize = 41;

/// What the first byte of every block is.
pub const VERSION: u8 = 129;

/// The block of a state; sizes and places are cut to two bytes.
#[inline]
pub fn pack(mailbox: &Mailbox) -> [u8; LEN] {
    let (mut block, mut mailbox) = ([0; LEN], *mailbox);
    block[0] = VERSION;
    let mut writer = Writer {
        block: &mut block,
        place: 1,
    };
    fields(&mut mailbox, &mut writer);
    block
}

/// The state that this block means: none unless the block has its length and is exactly what
/// `pack` gives for that state, so the version is ours and every flag is 0 or 1. Whether the state
/// fits is not asked here.
#[inline]
pub fn unpack(block: &[u8]) -> Option<Mailbox> {
    let block: &[u8; LEN] = block.try_into().ok()?;
    let mut mailbox = Mailbox::start(0, 0, 0);
    let mut reader = Reader {
        block,
        place: 1,
        flags_sound: true,
    };
    fields(&mut mailbox, &mut reader);
    (block[0] == VERSION && reader.flags_sound).then_some(mailbox)
}

/// Meets every field behind the version, in the order of the block.
#[inline(always)]
fn fields(mailbox: &mut Mailbox, meet: &mut impl Meet) {
    let Mailbox {
        to_bus,
        to_loop,
        loop_side,
        bus_side,
    } = mailbox;
    for way in [&mut *to_bus, &mut *to_loop] {
        meet.size(&mut way.ring.capacity);
        meet.size(&mut way.ring.oldest);
        meet.size(&mut way.ring.held);
    }
    meet.frame(&mut loop_side.under_way);
    meet.frame(&mut loop_side.held);
    meet.byte(&mut loop_side.address);
    meet.byte(&mut loop_side.talker);
    meet.flag(&mut loop_side.listener);
    meet.flag(&mut loop_side.finishing);
    meet.byte(&mut loop_side.source);
    meet.byte(&mut loop_side.poll.line);
    meet.byte(&mut bus_side.address);
    meet.byte(&mut bus_side.talker);
    meet.byte(&mut bus_side.poll.line);
    meet.flag(&mut bus_side.listener);
    for way in [to_bus, to_loop] {
        meet.flag(&mut way.news.request);
        meet.flag(&mut way.news.available);
        meet.flag(&mut way.news.again);
    }
    meet.flag(&mut loop_side.not_ready);
    meet.flag(&mut loop_side.holds);
    meet.flag(&mut loop_side.poll.on);
    meet.flag(&mut loop_side.poll.sense);
    meet.flag(&mut bus_side.serial_poll);
    meet.flag(&mut bus_side.status_read);
    meet.flag(&mut bus_side.configuring);
    meet.flag(&mut bus_side.poll.on);
}

/// What is done with a field, by its kind.
trait Meet {
    fn byte(&mut self, byte: &mut u8);
    fn flag(&mut self, flag: &mut bool);
    fn frame(&mut self, frame: &mut u16);
    fn size(&mut self, size: &mut usize);
}

/// Writes fields to a block, from its front.
struct Writer<'a> {
    block: &'a mut [u8; LEN],
    place: usize,
}

impl Writer<'_> {
    #[inline(always)]
    fn write<const N: usize>(&mut self, bytes: [u8; N]) {
        self.block[self.place..self.place + N].copy_from_slice(&bytes);
        self.place += N;
    }
}

impl Meet for Writer<'_> {
    #[inline(always)]
    fn byte(&mut self, byte: &mut u8) {
        self.write([*byte]);
    }

    #[inline(always)]
    fn flag(&mut self, flag: &mut bool) {
        self.write([u8::from(*flag)]);
    }

    #[inline(always)]
    fn frame(&mut self, frame: &mut u16) {
        self.write(frame.to_le_bytes());
    }

    #[inline(always)]
    fn size(&mut self, size: &mut usize) {
        self.write((*size as u16).to_le_bytes());
    }
}

/// Reads fields from a block, from its front.
struct Reader<'a> {
    block: &'a [u8; LEN],
    place: usize,
    /// Whether every flag read so far was 0 or 1.
    flags_sound: bool,
}

impl Reader<'_> {
    #[inline(always)]
    fn read<const N: usize>(&mut self) -> [u8; N] {
        let mut bytes = [0; N];
        bytes.copy_from_slice(&self.block[self.place..self.place + N]);
        self.place += N;
        bytes
    }
}

impl Meet for Reader<'_> {
    #[inline(always)]
    fn byte(&mut self, byte: &mut u8) {
        [*byte] = self.read();
    }

    #[inline(always)]
    fn flag(&mut self, flag: &mut bool) {
        let [byte] = self.read();
        self.flags_sound &= byte <= 1;
        *flag = byte == 1;
    }

    #[inline(always)]
    fn frame(&mut self, frame: &mut u16) {
        *frame = u16::from_le_bytes(self.read());
    }

    #[inline(always)]
    fn size(&mut self, size: &mut usize) {
        *size = u16::from_le_bytes(self.read()).into();
    }
}
