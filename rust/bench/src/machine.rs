//! What the works ask of a machine: its sides, by pointer, and its works.

use std::fmt::Debug;
use std::hash::Hash;

/// Three buffers as C takes them: pointer and length.
pub struct Lent<A, B> {
    pub block: (*mut u8, u64),
    pub stores: ((*mut A, u64), (*mut B, u64)),
}

/// What a store is of.
pub trait Cell: Copy + Default + PartialEq + Hash {}

impl Cell for u8 {}

impl Cell for u16 {}

/// Implementations by name. A constant of an older Rust cannot hold them, for they are statics.
pub type Sides<S> = &'static [(&'static str, &'static S)];

/// A machine whose instructions are counted.
pub trait Machine: 'static {
    /// What its first store is of.
    type One: Cell;
    /// What its second store is of.
    type Other: Cell;
    type Call: Copy + Debug;
    /// The C functions of one implementation.
    type Side: Copy;
    type Work: Copy;
    /// The length of a block.
    const BLOCK: usize;
    /// The works by name.
    const WORKS: &'static [(&'static str, Self::Work)];
    /// The calls that no work makes, and frames of the other kinds.
    const OTHERS: &'static [Self::Call];

    /// The implementations by name: the archive, those in plain Rust, and one that does nothing.
    fn sides() -> Sides<Self::Side>;

    /// Makes a call.
    ///
    /// # Safety
    ///
    /// The three pointers are good for their lengths and the buffers are apart.
    unsafe fn call(side: &Self::Side, lent: Lent<Self::One, Self::Other>, call: Self::Call) -> u64;

    /// The address of a call's function, and the numbers it takes behind the stores.
    fn passed(side: &Self::Side, call: Self::Call) -> (usize, Vec<u64>);

    /// The calls of a work before the first round, for stores of this size.
    fn set_up(work: Self::Work, store: usize) -> Vec<Self::Call>;

    /// Makes the calls of one round.
    fn round(work: Self::Work, make: &mut dyn FnMut(Self::Call) -> u64);

    /// Whether an answer hands a byte on to the other side, or for status tells the status byte.
    fn crosses(work: Self::Work, call: Self::Call, answer: u64) -> bool;

    /// The side of this name, read so that no compiler knows which functions will be called.
    fn side(name: &str) -> Option<Self::Side> {
        let (_, side) = Self::sides().iter().find(|side| side.0 == name)?;
        // SAFETY: the pointer comes from a reference to a side, which may be copied.
        Some(unsafe { std::ptr::read_volatile(*side) })
    }

    /// The work of this name.
    fn work(name: &str) -> Option<Self::Work> {
        Self::WORKS
            .iter()
            .find(|work| work.0 == name)
            .map(|work| work.1)
    }

    /// The implementations that answer, without the one that does nothing.
    fn answering() -> Vec<Self::Side> {
        let sides = Self::sides().iter().filter(|side| side.0 != "idle");
        sides.map(|side| *side.1).collect()
    }
}

/// The data or end frame in an answer, if it is one.
pub fn data_frame(answer: u64) -> Option<u32> {
    let frame = (answer & 0xff_ffff).wrapping_sub(3 << 16);
    (frame < 4 << 8).then_some(frame as u32)
}

/// The answer of a call that answers no more than done and tells no room.
pub const DONE: u64 = 0;

/// Whether an answer is a byte for the line or the bus.
pub fn is_byte(answer: u64) -> bool {
    answer >> 16 & 0xff == 2
}

/// The line byte in an answer, if it is one.
pub fn byte_in(answer: u64) -> Option<u8> {
    is_byte(answer).then_some(answer as u8)
}
