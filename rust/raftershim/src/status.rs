//! The status bytes of the two products.

use core::fmt;

/// Declares a status byte: its page, and its bits with the words for each.
macro_rules! status_byte {
    ($(#[$page:meta])* $type:ident: $($(#[$text:meta])* $name:ident = $bit:literal, $words:literal;)*) => {
        $(#[$page])*
        #[derive(Clone, Copy, Debug, Default, PartialEq, Eq, Hash)]
        pub struct $type(u8);

        impl $type {
            $(
                $(#[$text])*
                pub const $name: u8 = 1 << $bit;
            )*

            /// Whether all bits of this mask are set.
            ///
            /// ```
            #[doc = concat!("use raftershim::", stringify!($type), " as Status;")]
            ///
            /// assert!(Status::from(0b100_0001).has(Status::SERVICE));
            /// ```
            pub const fn has(self, bits: u8) -> bool {
                self.0 & bits == bits
            }
        }

        impl From<u8> for $type {
            fn from(byte: u8) -> $type {
                $type(byte)
            }
        }

        impl From<$type> for u8 {
            fn from(status: $type) -> u8 {
                status.0
            }
        }

        impl fmt::Display for $type {
            fn fmt(&self, f: &mut fmt::Formatter<'_>) -> fmt::Result {
                words_of(f, self.0, &[$(($type::$name, $words)),*])
            }
        }
    };
}

/// Writes the words of the bits that are set, from bit 0 on.
fn words_of(f: &mut fmt::Formatter<'_>, byte: u8, words: &[(u8, &str)]) -> fmt::Result {
    let mut set = words.iter().filter(|(bit, _)| byte & bit != 0);
    match set.next() {
        None => f.write_str("no bit set"),
        Some((_, first)) => {
            f.write_str(first)?;
            set.try_for_each(|(_, next)| write!(f, ", {next}"))
        }
    }
}

status_byte! {
    /// The status byte of a bridge, which answers
    /// [`Frame::SEND_STATUS`](crate::Frame::SEND_STATUS), bit by bit.
    ///
    /// It displays as the words of the bits that are set.
    ///
    /// ```
    /// use raftershim::StatusByte;
    ///
    /// let status = StatusByte::from(StatusByte::OVERRUN | StatusByte::TRANSMIT_EMPTY);
    /// assert!(status.has(StatusByte::OVERRUN) && !status.has(StatusByte::BREAK));
    /// assert_eq!(status.to_string(), "transmit store empty, overrun");
    /// assert_eq!(u8::from(status), 33);
    /// ```
    StatusByte:
    /// Bit 0: the transmit store is empty.
    TRANSMIT_EMPTY = 0, "transmit store empty";
    /// Bit 1: the transmit store is not full.
    TRANSMIT_NOT_FULL = 1, "transmit store not full";
    /// Bit 2: the receive store is not empty.
    RECEIVE_NOT_EMPTY = 2, "receive store not empty";
    /// Bit 3: the receive store is full.
    RECEIVE_FULL = 3, "receive store full";
    /// Bit 4: a break was seen.
    BREAK = 4, "break";
    /// Bit 5: a byte from the line was lost. It says that one is missing, and not in which
    /// reading: [`Meter::reading`](crate::Meter::reading) says that.
    OVERRUN = 5, "overrun";
    /// Bit 6: a service request shows.
    SERVICE = 6, "service requested";
    /// Bit 7: a press of the MSRQ key was seen.
    KEY = 7, "MSRQ key pressed";
}

status_byte! {
    /// The status byte of a mailbox, bit by bit: the loop is told it for
    /// [`Frame::SEND_STATUS`](crate::Frame::SEND_STATUS), the bus by a fetch in a serial poll.
    ///
    /// Each side has its own. It is told once: both bits are set when something comes into the
    /// empty way to that side, and after they were told they are off though bytes still wait. It
    /// displays as the words of the bits that are set.
    ///
    /// ```
    /// use raftershim::MailboxStatus;
    ///
    /// let status = MailboxStatus::from(65);
    /// assert!(status.has(MailboxStatus::AVAILABLE));
    /// assert_eq!(status.to_string(), "data available, service requested");
    /// assert_eq!(u8::from(status), 65);
    /// ```
    MailboxStatus:
    /// Bit 0: something has come into the empty way to this side.
    AVAILABLE = 0, "data available";
    /// Bit 6: service is requested, on the loop by the service bit, on the bus by SRQ.
    SERVICE = 6, "service requested";
}
