//! Two implementations side by side, compared after every call.

use crate::answer::in_words;
use crate::implementation::{Both, Implementation};
use crate::lent::Buffers;
use crate::machine::{Machine, Stores};
use crate::written::{told, Written};
use model::boundary::{kind, REFUSED};

/// Two implementations on equal buffers, and what they were asked.
pub struct Pair<M: Machine> {
    ours: Implementation<M>,
    theirs: Implementation<M>,
    our_buffers: Buffers<M>,
    their_buffers: Buffers<M>,
    /// What they were asked so far.
    written: Written<M>,
}

impl<M: Machine> Pair<M> {
    /// Fresh stores of these lengths and a state created for them, by archive and model.
    pub fn create(one: usize, other: usize, number: u32) -> Pair<M> {
        Pair::created(M::BOTH, [one, other], number)
    }

    /// As `create`, by these two implementations.
    pub fn created(both: Both<M>, lens: [usize; 2], number: u32) -> Pair<M> {
        let mut pair = Pair::blank(both, lens);
        pair.written = Written::created(lens, number);
        let created = pair.recreate(number);
        assert_eq!(created, Ok(0), "the sizes are obeyed");
        pair
    }

    /// These two on a block that is no state, and on stores of these lengths.
    pub fn blank(both: Both<M>, lens: [usize; 2]) -> Pair<M> {
        let one = vec![M::One::default(); lens[0]];
        let other = vec![M::Other::default(); lens[1]];
        Pair::of(both, &vec![0; M::BLOCK_LEN], (&one, &other))
    }

    /// Archive and model on buffers that hold these, whatever they mean.
    pub fn holding(block: &[u8], one: &[M::One], other: &[M::Other]) -> Pair<M> {
        Pair::of(M::BOTH, block, (one, other))
    }

    /// As `holding`, by these two implementations.
    pub fn of(both: Both<M>, block: &[u8], stores: Stores<M>) -> Pair<M> {
        let [ours, theirs] = both;
        let buffers = Buffers::holding(block, stores);
        Pair {
            ours,
            theirs,
            our_buffers: buffers.clone(),
            their_buffers: buffers,
            written: Written::holding(block, stores),
        }
    }

    /// Creates a state in the buffers as they are.
    pub fn recreate(&mut self, number: u32) -> Result<u64, String> {
        let ours = (self.ours.create)(self.our_buffers.lend(), number);
        if kind(ours) == REFUSED {
            self.same_buffers("refused, yet ")?;
        }
        let theirs = (self.theirs.create)(self.their_buffers.lend(), number);
        self.compared(ours, theirs)
    }

    /// Makes a call on both sides: its answer, or a sentence that says what differs.
    pub fn call(&mut self, call: M::Call) -> Result<u64, String> {
        self.written.add(call);
        let ours = (self.ours.call)(self.our_buffers.lend(), call);
        if M::looks(call) || kind(ours) == REFUSED {
            // The other is not asked yet, so its buffers are those of before the call.
            self.same_buffers("refused or shown, yet ")?;
        }
        let theirs = (self.theirs.call)(self.their_buffers.lend(), call);
        self.compared(ours, theirs)
    }

    /// Makes a call of which only the comparison counts.
    pub fn ask(&mut self, call: M::Call) -> u64 {
        self.call(call)
            .unwrap_or_else(|finding| panic!("{finding}"))
    }

    /// Makes a call whose answer was written down beforehand.
    pub fn expect(&mut self, call: M::Call, answer: u64) {
        let given = self.ask(call);
        if given != answer {
            let finding = format!("{}, not {}", in_words(given), in_words(answer));
            panic!("{}", self.told(&finding))
        }
    }

    /// Compares answers, blocks and stores after a call.
    fn compared(&self, ours: u64, theirs: u64) -> Result<u64, String> {
        let (one, other) = (self.ours.name, self.theirs.name);
        if ours != theirs {
            let (ours, theirs) = (in_words(ours), in_words(theirs));
            return Err(self.told(&format!("{one} {ours}, {other} {theirs}")));
        }
        self.same_buffers(&format!("{one} and {other} differ: "))?;
        Ok(ours)
    }

    fn same_buffers(&self, sentence: &str) -> Result<(), String> {
        let theirs = &self.their_buffers;
        match self.our_buffers.first_difference(theirs) {
            None => Ok(()),
            Some(place) => Err(self.told(&format!("{sentence}{place}"))),
        }
    }

    /// A finding after the script that leads to it.
    pub fn told(&self, finding: &str) -> String {
        told(finding, &self.written)
    }

    /// How many calls were made, create aside.
    pub fn asked(&self) -> usize {
        self.written.asked()
    }

    /// The calls so far as a script.
    pub fn script(&self) -> String {
        self.written.to_string()
    }

    /// The state, if the block is one; both sides have the same.
    pub fn state(&self) -> Option<M::State> {
        M::state(self.our_buffers.block())
    }

    /// The buffers of the first implementation; those of the other are equal.
    pub fn buffers(&self) -> &Buffers<M> {
        &self.our_buffers
    }
}
