//! The block: the places of its fields, and whether it is a state that fits.

/// The state as the caller keeps it.
pub type Block = [u8; 56];

/// What the first byte of our blocks is.
const OURS: u8 = 3;

/// The places of the fields; a number of several bytes starts there, low byte first.
const VERSION: usize = 0;
pub const MARGIN: usize = 1;
pub const STORED: usize = 15;
pub const LOST: usize = 19;
pub const SENT: usize = 23;
pub const ADDRESS: usize = 27;
pub const PHASE: usize = 28;
pub const LISTENER: usize = 29;
pub const UNDER_WAY: usize = 30;
pub const FINISHING: usize = 32;
pub const R00: usize = 33;
pub const R01: usize = 34;
pub const R02: usize = 35;
pub const R10: usize = 36;
pub const R11: usize = 37;
pub const C00: usize = 38;
pub const C01: usize = 39;
pub const C02: usize = 40;
pub const C03: usize = 41;
pub const GO: usize = 42;
pub const STOP: usize = 43;
pub const HOLDING: usize = 44;
pub const FORBIDDEN: usize = 45;
pub const STOP_SENT_LAST: usize = 46;
pub const BREAK_SEEN: usize = 47;
pub const OVERRUN_SEEN: usize = 48;
pub const KEY_SEEN: usize = 49;
pub const BREAK_AGAIN: usize = 50;
pub const OVERRUN_AGAIN: usize = 51;
pub const KEY_AGAIN: usize = 52;
pub const REQUEST: usize = 53;
pub const REMOTE_ENABLED: usize = 54;
pub const REMOTE: usize = 55;

/// Our address where we have none.
pub const UNASSIGNED: u8 = 31;

/// What create gives, sizes and margin aside: no address, the protocol on, and the characters.
const START: Block = {
    let mut block = [0; 56];
    block[VERSION] = OURS;
    block[ADDRESS] = UNASSIGNED;
    block[R11] = 8;
    block[C00] = 13;
    block[C01] = 10;
    block[C02] = 13;
    block[C03] = 10;
    block[GO] = 17;
    block[STOP] = 19;
    block
};

/// The bits that are 0 in the bytes from place 24 on: address to 31, phase to 3, flags, a data
/// frame under way, and carried bits of registers only.
const ZERO: [[u8; 8]; 4] = [
    [0, 0, 0, 0xe0, 0xfc, 0xfe, 0, 0xfc],
    [0xfe, !9, !15, !5, !12, !8, 0, 0],
    [0, 0, 0, 0, 0xfe, 0xfe, 0xfe, 0xfe],
    [0xfe; 8],
];

/// The number of two bytes at a place.
#[inline(always)]
pub fn word(block: &Block, place: usize) -> u16 {
    u16::from_le_bytes([block[place], block[place + 1]])
}

#[inline(always)]
pub fn set_word(block: &mut Block, place: usize, value: u16) {
    block[place..place + 2].copy_from_slice(&value.to_le_bytes());
}

/// Counts one more; after the largest number comes 0.
#[inline(always)]
pub fn count(block: &mut Block, place: usize) {
    let mut bytes = [0; 4];
    bytes.copy_from_slice(&block[place..place + 4]);
    let next = u32::from_le_bytes(bytes).wrapping_add(1);
    block[place..place + 4].copy_from_slice(&next.to_le_bytes());
}

/// Eight bytes from a place on, as one number.
#[inline(always)]
fn eight(block: &Block, place: usize) -> u64 {
    let mut bytes = [0; 8];
    bytes.copy_from_slice(&block[place..place + 8]);
    u64::from_le_bytes(bytes)
}

/// Whether margin and lengths are allowed.
#[inline(always)]
pub fn sizes_obeyed(rx_len: usize, tx_len: usize, margin: u32) -> bool {
    margin.wrapping_sub(1) < 1024
        && rx_len <= 32_768
        && rx_len >= 2 * margin as usize + 2
        && tx_len.wrapping_sub(3) <= 32_765
}

/// Writes what create gives.
#[inline]
pub fn start(block: &mut Block, rx_len: usize, tx_len: usize, margin: u16) {
    *block = START;
    set_word(block, MARGIN, margin);
    set_word(block, 3, rx_len as u16);
    set_word(block, 9, tx_len as u16);
}

/// Whether the block is a state that fits stores of these lengths.
#[inline(always)]
pub fn fits(block: &Block, rx_len: usize, tx_len: usize) -> bool {
    let ring = |place, len| {
        let at = |place| usize::from(word(block, place));
        at(place) == len && at(place + 2) < len && at(place + 4) <= len
    };
    let wrong = |row: usize| eight(block, 24 + 8 * row) & u64::from_le_bytes(ZERO[row]);
    block[VERSION] == OURS
        && wrong(0) | wrong(1) | wrong(2) | wrong(3) == 0
        && ring(3, rx_len)
        && ring(9, tx_len)
        && sizes_obeyed(rx_len, tx_len, word(block, MARGIN).into())
        && block[GO] != block[STOP]
        && (block[PHASE] == 0 || block[LISTENER] == 0)
}

/// The block, if it is a state that fits stores of these lengths.
#[inline(always)]
pub fn fitting(block: &mut [u8], rx_len: usize, tx_len: usize) -> Option<&mut Block> {
    let block = <&mut Block>::try_from(block).ok()?;
    if fits(block, rx_len, tx_len) {
        Some(block)
    } else {
        None
    }
}
