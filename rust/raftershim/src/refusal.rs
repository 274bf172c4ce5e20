//! Why a call is refused.

use core::fmt;

/// Why a call was refused. The state and both stores are as they were before the call.
///
/// It is the number of the refusal, with a name for each that is known. A number that gets a name
/// later keeps its meaning, since two refusals are equal if their numbers are. It displays as its
/// number and a plain sentence, and it is an error in the sense of Rust; the page of the crate says
/// from which compiler on.
///
/// ```
/// use raftershim::{Bridge, Register, Refusal, Stores};
///
/// let mut bridge = Bridge::create(Stores { receive: [0; 8], transmit: [0; 3] }, 3)?;
/// let refusal = bridge.write_register(Register::R10, 16).unwrap_err();
/// match refusal {
///     Refusal::VALUE_TOO_LARGE => assert_eq!(refusal.number(), 6),
///     other => panic!("{other}"),
/// }
/// assert!(refusal.to_string().starts_with("refusal 6: the control value is above 15"));
/// # Ok::<(), raftershim::BadSize>(())
/// ```
#[derive(Clone, Copy, PartialEq, Eq, PartialOrd, Ord, Hash)]
pub struct Refusal(u16);

/// Declares the refusals that have a name: the constant, its number and the sentence for a person.
macro_rules! refusals {
    ($($(#[$text:meta])* $name:ident = $number:literal, $sentence:literal;)*) => {
        impl Refusal {
            $(
                $(#[$text])*
                pub const $name: Refusal = Refusal($number);
            )*

            /// Why, in the words that a person hears.
            const fn sentence(self) -> &'static str {
                match self.0 {
                    $($number => $sentence,)*
                    _ => "the reason is not known here",
                }
            }
        }
    };
}

refusals! {
    /// Refusal 1, of create: a size or the address on the bus is broken.
    /// [`BadSize`](crate::BadSize) says which.
    SIZES = 1, "a size or the address on the bus is broken, or the block has the wrong length";

    /// Refusal 2: what was saved is not a state that fits the stores, or a store no longer lends
    /// the length that it had.
    MISFIT = 2, "the block is not a state that fits the stores";

    /// Refusal 3: the loop frame is above 2047, so it is no frame.
    FRAME_TOO_LARGE = 3, "the loop frame is above 2047";

    /// Refusal 4: we are listener, and a store lacks room for what the data frame or the data byte
    /// of the bus adds. Nothing is lost: offer it again when the other side has taken bytes.
    BUSY = 4, "busy, the store lacks room for what the frame or the byte adds";

    /// Refusal 5: the register number is not carried.
    NOT_CARRIED = 5, "the register number is not carried";

    /// Refusal 6: the control value is above 15, or the character is above 255.
    VALUE_TOO_LARGE = 6, "the control value is above 15, or the character above 255";

    /// Refusal 7: the value has a control bit that is not carried.
    BIT_NOT_CARRIED = 7, "the value has a control bit that is not carried";

    /// Refusal 8: the go and stop characters would be equal.
    GO_IS_STOP = 8, "the go and stop characters would be equal";

    /// Refusal 10: R10, C00 or C01 is written while the receive store holds at least one byte.
    /// Nothing is lost: read what is held, and write again. Bytes that wait for the end of their line
    /// are read after a break. The page of
    /// [`Register`](crate::Register#no-rule-changes-under-a-held-line) says how.
    HELD_BYTES = 10, "held bytes, R10, C00 and C01 are written only while the receive store holds none";

    /// Refusal 12: nothing is next for the line, or the byte named is not the next one. Ask again.
    /// The calls of a [`Bridge`](crate::Bridge) never give it as long as its stores keep what they
    /// hold: a [`NextLineByte`](crate::NextLineByte) takes only what was asked for.
    NOT_NEXT = 12, "not next, another byte is next for the line, or none is";

    /// Refusal 13: the command of the bus is above 127, so it is no command.
    COMMAND_TOO_LARGE = 13, "the command of the bus is above 127";
}

impl Refusal {
    /// What stands for an answer that the headers of the C functions do not describe. No refusal
    /// has the number 0, and the archive never gives such an answer.
    pub(crate) const UNDESCRIBED: Refusal = Refusal(0);

    /// The refusal that has this number.
    ///
    /// ```
    /// use raftershim::Refusal;
    ///
    /// assert_eq!(Refusal::of(4), Refusal::BUSY);
    /// assert_eq!(Refusal::of(77).to_string(), "refusal 77: the reason is not known here");
    /// ```
    pub const fn of(number: u16) -> Refusal {
        Refusal(number)
    }

    /// The number of the refusal.
    ///
    /// ```
    /// assert_eq!(raftershim::Refusal::BUSY.number(), 4);
    /// ```
    pub const fn number(self) -> u16 {
        self.0
    }
}

impl fmt::Display for Refusal {
    fn fmt(&self, f: &mut fmt::Formatter<'_>) -> fmt::Result {
        write!(f, "refusal {}: {}", self.number(), self.sentence())
    }
}

impl fmt::Debug for Refusal {
    /// As it displays, since this is what a failing `unwrap` says.
    fn fmt(&self, f: &mut fmt::Formatter<'_>) -> fmt::Result {
        write!(f, "Refusal({self})")
    }
}

/// Makes a type an error in the sense of Rust, by the trait that the compiler has.
macro_rules! error {
    ($name:ty) => {
        #[cfg(core_error)]
        impl core::error::Error for $name {}

        #[cfg(all(feature = "std", not(core_error)))]
        impl std::error::Error for $name {}
    };
}
pub(crate) use error;

error!(Refusal);
