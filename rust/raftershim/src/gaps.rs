//! Where bytes of the line are missing.

use crate::State;

/// A bit for each place of the receive store: a byte is missing right after the one held there.
///
/// A byte that is lost is missing after the newest byte. The bit is taken when that byte leaves the
/// store. So a bit for each place is enough, however many bytes are lost. The bridge loses a byte
/// only while the store is full; one lost on the way to an empty store is noted elsewhere.
#[derive(Clone, PartialEq, Eq, Hash)]
pub(crate) struct Gaps<G>(G);

impl<G: AsRef<[u8]> + AsMut<[u8]>> Gaps<G> {
    /// No byte is missing.
    pub(crate) fn none(mut bits: G) -> Gaps<G> {
        bits.as_mut().fill(0);
        Gaps(bits)
    }

    /// Notes that a byte is missing after the one at this place.
    pub(crate) fn note(&mut self, place: usize) {
        if let Some(bits) = self.0.as_mut().get_mut(place / 8) {
            *bits |= 1 << (place % 8);
        }
    }

    /// Whether a byte is missing after the one at this place; after that none is. A place without a
    /// bit counts as if one were: rather a warning too many.
    pub(crate) fn take(&mut self, place: usize) -> bool {
        match self.0.as_mut().get_mut(place / 8) {
            None => true,
            Some(bits) => {
                let missing = *bits & 1 << (place % 8) != 0;
                *bits &= !(1 << (place % 8));
                missing
            }
        }
    }
}

/// The place of the held byte with this index, 0 being the oldest.
pub(crate) fn place(state: &State, index: usize) -> usize {
    let place = usize::from(state.receive.oldest) + index;
    let len = usize::from(state.receive_len);
    if place < len {
        place
    } else {
        place - len
    }
}
