//! The line under way, as it is read off the bridge.

use crate::{Reading, Text};

/// The text of the line under way, and what is still to be told of lines that have ended.
///
/// One send can end a line, then lines without text, and bring the first byte of the line after
/// them. They are told in this order.
#[derive(Clone, PartialEq, Eq, Hash)]
pub(crate) struct Line<X> {
    text: X,
    /// How many bytes of the text are taken.
    len: usize,
    /// Set when the text is that of a line that has ended: whether a byte is missing in it.
    ended: Option<bool>,
    /// Whether the line that has ended was told.
    told: bool,
    /// Lines to be told after it that ended without text, because all of it is missing.
    without_text: usize,
    /// The first byte of the line after all these, and, if that has ended too, whether a byte is
    /// missing in it.
    next: Option<(u8, Option<bool>)>,
    /// Whether a byte of the line under way was read.
    begun: bool,
    /// Whether a byte of the line under way is missing.
    missing: bool,
}

impl<X: AsRef<[u8]> + AsMut<[u8]>> Line<X> {
    /// A line of which nothing has come; `missing` says whether a byte may have gone before.
    pub(crate) fn new(text: X, missing: bool) -> Line<X> {
        Line {
            text,
            len: 0,
            ended: None,
            told: false,
            without_text: 0,
            next: None,
            begun: false,
            missing,
        }
    }

    /// A byte of the line under way is missing, if so.
    pub(crate) fn lacks(&mut self, missing: bool) {
        self.missing |= missing;
    }

    /// The next byte of the line under way.
    pub(crate) fn put(&mut self, byte: u8) {
        self.begun = true;
        if self.has_news() {
            self.next = Some((byte, None));
        } else {
            self.missing |= !self.takes(byte);
        }
    }

    /// Whether the text has a place for this byte.
    fn takes(&mut self, byte: u8) -> bool {
        let place = self.text.as_mut().get_mut(self.len);
        let taken = place.map(|place| *place = byte).is_some();
        self.len += usize::from(taken);
        taken
    }

    /// The line under way has ended with its end byte; `missing` is said of the next one.
    pub(crate) fn end(&mut self, missing: bool) {
        self.begun = false;
        let ended = Some(core::mem::replace(&mut self.missing, missing));
        match &mut self.next {
            Some((_, next_ended)) => *next_ended = ended,
            None => self.ended = ended,
        }
    }

    /// The line under way has ended without an end byte: it is told if it has text, or if all its
    /// text is missing. `missing` is said of the next one.
    pub(crate) fn end_alone(&mut self, missing: bool) {
        if !self.has_news() && self.len > 0 {
            return self.end(missing);
        }
        self.begun = false;
        self.without_text += usize::from(self.missing);
        self.missing = missing;
    }

    /// The line under way is cut off by a break, so its end is missing. It is told if a byte of it
    /// was read; `missing` is said of the next one.
    pub(crate) fn cut(&mut self, missing: bool) {
        if self.begun {
            self.missing = true;
            self.end(missing);
        } else {
            self.drop(missing);
        }
    }

    /// The line under way is not told; `missing` is said of the next one.
    pub(crate) fn drop(&mut self, missing: bool) {
        match (self.next, self.ended) {
            (Some((_, None)), _) => self.next = None,
            (None, None) => self.len = 0,
            _ => {}
        }
        self.begun = false;
        self.missing = missing;
    }

    /// Goes on to the next line if the one that has ended was told.
    pub(crate) fn go_on(&mut self) {
        if self.told {
            (self.len, self.ended, self.told) = (0, None, false);
        }
        if self.has_news() {
            return;
        }
        if let Some((byte, ended)) = self.next.take() {
            let missing = !self.takes(byte);
            self.ended = ended.map(|ended| ended || missing);
            self.missing |= missing && ended.is_none();
        }
    }

    /// Whether a line that has ended is to be told.
    pub(crate) fn has_news(&self) -> bool {
        self.ended.is_some() || self.without_text > 0
    }

    /// Tells the next line that has ended, or the one under way.
    pub(crate) fn tell(&mut self) -> Reading<'_> {
        if self.ended.is_none() && self.without_text > 0 {
            self.without_text -= 1;
            return Reading::Gap(Text::default());
        }
        self.told = self.ended.is_some();
        let text = Text::of(self.text.as_ref().get(..self.len).unwrap_or_default());
        match self.ended {
            Some(false) => Reading::Whole(text),
            Some(true) => Reading::Gap(text),
            None => Reading::NotEnded(text),
        }
    }
}
