//! What is drawn of the bridge.

mod every_call;
mod out;
mod sizes;
mod states;
mod steps;

use super::call::Call;
use super::TheBridge;
use crate::random::Random;
use crate::runs::{Drawable, Drawn};

impl Drawable for TheBridge {
    type What = steps::What;

    fn sizes(random: &mut Random) -> ([usize; 2], u32) {
        sizes::sizes(random)
    }

    fn drawn(random: &mut Random) -> Drawn<TheBridge> {
        states::state(random)
    }

    fn what(random: &mut Random) -> (steps::What, u8) {
        steps::what(random.below(steps::KINDS), random.word())
    }

    fn every_call(number: u32) -> Vec<Call> {
        every_call::every_call(number)
    }

    fn number(number: u32) -> u32 {
        every_call::margin(number)
    }
}
