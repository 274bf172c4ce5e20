//! What the history counts, and the bit of each row.

/// What is counted.
pub const ROWS: &[&str] = &[
    "bytes left by the loop",
    "bytes left by the bus",
    "bytes fetched by the loop",
    "bytes fetched by the bus",
    "frames held back",
    "held frames released",
    "status bytes sent",
    "status bytes back",
    "bytes of an ID sent",
    "sendings damaged",
    "sendings cut off by a command",
    "status bytes read by the bus",
    "ways to the bus cleared",
    "ways to the loop cleared",
    "bytes of the bus not kept",
];

pub const LEFT_BY_LOOP: u32 = 1;
pub const LEFT_BY_BUS: u32 = 1 << 1;
pub const FETCHED_BY_LOOP: u32 = 1 << 2;
pub const FETCHED_BY_BUS: u32 = 1 << 3;
pub const HELD_BACK: u32 = 1 << 4;
pub const RELEASED: u32 = 1 << 5;
pub const STATUS_SENT: u32 = 1 << 6;
pub const STATUS_BACK: u32 = 1 << 7;
pub const ID_SENT: u32 = 1 << 8;
pub const DAMAGED: u32 = 1 << 9;
pub const CUT_OFF: u32 = 1 << 10;
pub const STATUS_READ: u32 = 1 << 11;
pub const TO_BUS_CLEARED: u32 = 1 << 12;
pub const TO_LOOP_CLEARED: u32 = 1 << 13;
pub const NOT_KEPT: u32 = 1 << 14;
