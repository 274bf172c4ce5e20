//! Every order of an alphabet of the bridge's calls, on a transmit store of 3.

use super::call::Call;
use super::{TheBridge, MODEL};
use crate::explore::{explore, Found, Letter, Plan, EVERY_STATE};
use crate::implementation::{Both, Implementation};
use crate::machine::Machine;
use crate::played::play;
use crate::tally::Tally;
use crate::written::script_in;
use script::Script;

/// What to go through.
pub struct Orders<'a> {
    pub name: &'a str,
    /// The receive store and the margin.
    pub receive: (usize, u32),
    /// Calls from create to the first state; none of them is refused.
    pub start: &'a [Call],
    pub calls: &'a [Call],
    /// No state is taken up any more once so many transitions are made.
    pub limit: usize,
}

/// A difference, and the shortest way to it.
pub struct Way {
    /// What is told of it, with the script.
    pub told: String,
    pub script: Script,
    /// How many calls the script has behind create and the start.
    pub calls: usize,
}

impl Orders<'_> {
    /// Goes through them with these two and these returns of frames under way, and prints what was
    /// found. A difference panics with the script to it.
    pub fn explored(&self, both: Both<TheBridge>, returns: &[u16]) -> Tally<TheBridge> {
        let (name, within) = (self.name, both[0].name);
        let found = self.gone_through(both, returns);
        let found = found.unwrap_or_else(|told| panic!("{name}, {within}: {told}"));
        println!("every order, {name}, {within}: {found}");
        assert!(found.complete || self.limit < EVERY_STATE);
        found.tally
    }

    /// The first difference between these two, if there is one.
    pub fn difference(&self, both: Both<TheBridge>, returns: &[u16]) -> Option<Way> {
        let told = self.gone_through(both, returns).err()?;
        let script: Script = script_in(&told).expect("a script").parse().expect("sound");
        let calls = script.steps.len() - 1 - self.start.len();
        Some(Way {
            told,
            script,
            calls,
        })
    }

    /// A fault that shows beside the model, by a script that shows it again and that the archive plays
    /// as the model does. Each frame under way may come back unchanged.
    pub fn found_beside_the_model(&self, fault: Implementation<TheBridge>) -> Option<Way> {
        let way = self.difference([fault, MODEL], &[0])?;
        assert!(play([fault, MODEL], &way.script).is_err(), "{}", way.told);
        assert!(play(TheBridge::BOTH, &way.script).is_ok(), "{}", way.told);
        Some(way)
    }

    fn gone_through(
        &self,
        both: Both<TheBridge>,
        returns: &[u16],
    ) -> Result<Found<TheBridge>, String> {
        let calls = self.calls.iter().copied().map(Letter::Make);
        let backs = returns.iter().copied().map(Letter::Back);
        let letters: Vec<Letter<Call>> = calls.chain(backs).collect();
        explore(&Plan {
            both,
            lens: [self.receive.0, 3],
            number: self.receive.1,
            start: self.start,
            letters: &letters,
            limit: self.limit,
        })
    }
}
