//! What a side is told of the way to it: its status byte, which is latched.

/// The two bits of a side's status byte, and when they were set.
#[derive(Clone, Copy, Debug, PartialEq, Eq, Hash)]
pub struct News {
    /// Bit 6. It is also the service bit on the loop and SRQ on the bus.
    pub request: bool,
    /// Bit 0: data is available.
    pub available: bool,
    /// Whether both were set since the last status byte was sent. Only the loop asks for it.
    pub again: bool,
}

impl News {
    /// Nothing to tell.
    pub const NONE: News = News {
        request: false,
        available: false,
        again: false,
    };
    /// Something has come into the empty way.
    pub const FRESH: News = News {
        request: true,
        available: true,
        again: true,
    };

    pub(crate) fn status(self) -> u8 {
        u8::from(self.request) << 6 | u8::from(self.available)
    }
}
