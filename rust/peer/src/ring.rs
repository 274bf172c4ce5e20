//! A ring of bytes or cells on a lent store: its length, oldest place and how many it holds are in
//! the block.

use crate::block::{set_word, word, Block};

/// A ring by the place of its fields.
#[derive(Clone, Copy)]
pub struct Ring(usize);

/// Line to loop.
pub const RECEIVE: Ring = Ring(3);
/// Loop to line.
pub const TRANSMIT: Ring = Ring(9);

/// A place, come round after the last; it is less than two lengths.
#[inline(always)]
pub fn round(place: usize, len: usize) -> usize {
    if place >= len {
        place - len
    } else {
        place
    }
}

impl Ring {
    #[inline(always)]
    fn len(self, block: &Block) -> u16 {
        word(block, self.0)
    }

    #[inline(always)]
    pub fn oldest(self, block: &Block) -> usize {
        word(block, self.0 + 2).into()
    }

    #[inline(always)]
    pub fn held(self, block: &Block) -> u16 {
        word(block, self.0 + 4)
    }

    #[inline(always)]
    pub fn free(self, block: &Block) -> u16 {
        self.len(block) - self.held(block)
    }

    #[inline(always)]
    pub fn is_full(self, block: &Block) -> bool {
        self.len(block) == self.held(block)
    }

    /// Puts one behind the newest; there is room.
    #[inline(always)]
    pub fn put<T>(self, block: &mut Block, store: &mut [T], value: T) {
        let held = self.held(block);
        let place = round(self.oldest(block) + usize::from(held), store.len());
        store[place] = value;
        set_word(block, self.0 + 4, held + 1);
    }

    /// The newest one, to be changed, if any is held.
    #[inline(always)]
    pub fn newest<'a, T>(self, block: &Block, store: &'a mut [T]) -> Option<&'a mut T> {
        let before = usize::from(self.held(block)).checked_sub(1)?;
        let place = round(self.oldest(block) + before, store.len());
        Some(&mut store[place])
    }

    /// Removes the oldest one; there is one.
    #[inline(always)]
    pub fn remove_oldest(self, block: &mut Block) {
        let place = round(self.oldest(block) + 1, self.len(block).into());
        self.keep(block, place, self.held(block) - 1);
    }

    /// Holds so many from this place on.
    #[inline(always)]
    pub fn keep(self, block: &mut Block, oldest: usize, held: u16) {
        set_word(block, self.0 + 2, oldest as u16);
        set_word(block, self.0 + 4, held);
    }

    /// Where the unbroken run from the oldest one starts, above its length.
    pub fn shown(self, block: &Block) -> u64 {
        let oldest = word(block, self.0 + 2);
        match u16::min(self.held(block), self.len(block) - oldest) {
            0 => 0,
            run => u64::from(oldest) << 32 | u64::from(run),
        }
    }
}
