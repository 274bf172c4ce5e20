//! What a meter's line says, reading by reading.

use core::fmt;

/// One reading of a meter, as [`Meter::reading`](crate::Meter::reading) gives it. Its text is
/// reached only by a match that says what it is worth.
///
/// ```
/// use raftershim::Reading;
///
/// fn spoken(reading: Reading) -> Option<String> {
///     match reading {
///         Reading::Whole(text) => Some(format!("{text} volts")),
///         Reading::Gap(_) => Some("a byte is missing, measure again".into()),
///         _ => None,
///     }
/// }
/// # assert_eq!(spoken(Reading::NotEnded(Default::default())), None);
/// ```
#[derive(Clone, Copy, Debug, PartialEq, Eq, Hash)]
#[must_use = "this may say that a byte is missing, and the reading is told only once"]
#[non_exhaustive]
pub enum Reading<'a> {
    /// The reading has ended, and every byte that came on the line for it is in its text.
    Whole(Text<'a>),
    /// The reading has ended, and a byte is missing in its text, or a break has cut it off. Never
    /// speak it as a number.
    Gap(Text<'a>),
    /// The reading has not ended: this is its text so far. The next call goes on with it.
    NotEnded(Text<'a>),
}

/// The text of a reading: the bytes as the meter sent them, without the end of the line.
///
/// It displays each byte as the character with that number.
///
/// ```
/// use raftershim::{Meter, Notes, Reading, Stores};
///
/// let stores = Stores { receive: [0; 64], transmit: [0; 64] };
/// let mut meter = Meter::create(stores, Notes { gaps: [0; 8], text: [0; 32] }, 8)?;
/// meter.line_bytes(b"2.5 V\r\n")?;
/// if let Reading::Whole(text) = meter.reading()? {
///     assert_eq!((text.as_bytes(), text.to_string().as_str()), (&b"2.5 V"[..], "2.5 V"));
/// }
/// # Ok::<(), raftershim::Refusal>(())
/// ```
#[derive(Clone, Copy, Default, PartialEq, Eq, PartialOrd, Ord, Hash)]
pub struct Text<'a>(&'a [u8]);

impl<'a> Text<'a> {
    pub(crate) fn of(bytes: &'a [u8]) -> Text<'a> {
        Text(bytes)
    }

    /// The bytes of the text.
    ///
    /// ```
    /// assert!(raftershim::Text::default().as_bytes().is_empty());
    /// ```
    pub fn as_bytes(self) -> &'a [u8] {
        self.0
    }
}

impl fmt::Display for Text<'_> {
    fn fmt(&self, f: &mut fmt::Formatter<'_>) -> fmt::Result {
        use fmt::Write;
        self.0
            .iter()
            .try_for_each(|&byte| f.write_char(byte.into()))
    }
}

impl fmt::Debug for Text<'_> {
    fn fmt(&self, f: &mut fmt::Formatter<'_>) -> fmt::Result {
        write!(f, "Text(\"{}\")", self.0.escape_ascii())
    }
}
