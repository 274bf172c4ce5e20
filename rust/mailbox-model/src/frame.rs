//! The 11 bits of a loop frame: three control bits above eight data bits.

/// The service bit of data and identify frames: the lowest of the three control bits.
pub const SERVICE: u16 = 1 << 8;
/// The end bit of data frames.
pub const END: u16 = 2 << 8;
/// The control bits of a ready frame.
pub(crate) const READY: u16 = 5 << 8;
/// 5,64: the end of a sending, all well.
pub(crate) const SENDING_OVER: u16 = READY | 64;
/// 5,65: the end of a sending, our frame came back damaged.
pub(crate) const SENDING_DAMAGED: u16 = READY | 65;
/// 5,66: not ready for more data.
pub(crate) const NOT_READY: u16 = READY | 66;
/// The first number that is no data frame.
pub(crate) const DATA_END: u16 = 4 << 8;
/// The largest frame.
pub(crate) const LARGEST_FRAME: u32 = 2047;

/// Whether a frame is data, an end byte or not.
pub(crate) fn is_data(frame: u16) -> bool {
    frame < DATA_END
}

/// Whether a frame came back as it went, other devices' service requests aside.
pub(crate) fn same_apart_from_service(one: u16, other: u16) -> bool {
    one & !SERVICE == other & !SERVICE
}
