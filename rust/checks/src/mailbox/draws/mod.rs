//! What is drawn of the mailbox.

mod states;
mod steps;

use super::call::{frame, Call};
use super::TheMailbox;
use crate::random::Random;
use crate::runs::{Drawable, Drawn};

/// The largest store.
const LARGEST: usize = 32_768;

impl Drawable for TheMailbox {
    type What = steps::What;

    /// Small stores often, since those fill.
    fn sizes(random: &mut Random) -> ([usize; 2], u32) {
        let lens = match random.below(24) {
            0..=2 => [1, 1],
            3..=5 => [2, 2],
            6..=20 => [random.within(1..=24), random.within(1..=24)],
            21 => [LARGEST, LARGEST],
            22 => random.one_of(&[[1, LARGEST], [LARGEST, 1]]),
            _ => [random.within(1..=LARGEST), random.within(1..=LARGEST)],
        };
        (lens, random.below(31) as u32)
    }

    fn drawn(random: &mut Random) -> Drawn<TheMailbox> {
        states::state(random)
    }

    fn what(random: &mut Random) -> (steps::What, u8) {
        steps::what(random.below(66), random.word())
    }

    fn every_call(number: u32) -> Vec<Call> {
        vec![
            Call::Show(0),
            Call::Show(1),
            Call::Show(number >> 30),
            Call::Show(number),
            Call::Lines,
            Call::Frame(number),
            Call::Frame(number & 0x7ff),
            Call::Command(number),
            Call::Command(number & 127),
            Call::Byte(number as u8, 0),
            Call::Byte(number as u8, number),
            Call::Fetch,
            Call::Clear,
            frame(5, 96),
            frame(number & 3, 50),
            Call::Fetch,
            Call::Reset,
        ]
    }

    fn number(number: u32) -> u32 {
        [7, number & 63, number][number as usize % 3]
    }
}
