//! Every state that an alphabet of calls can reach on tiny stores, the shortest path first.

use crate::answer::in_words;
use crate::implementation::Both;
use crate::lent::Lent;
use crate::machine::{Machine, Made, Stores, Watcher};
use crate::tally::Tally;
use crate::written::{told, Written};
use model::boundary::{kind, REFUSED};
use std::collections::{HashSet, VecDeque};
use std::fmt;

/// A call, or a frame that depends on the one under way.
#[derive(Clone, Copy, Debug)]
pub enum Letter<C> {
    Make(C),
    /// The frame under way with these bits changed: 0 is its correct return.
    Back(u16),
}

/// What to explore.
pub struct Plan<'a, M: Machine> {
    /// The two that are compared.
    pub both: Both<M>,
    pub lens: [usize; 2],
    /// The number that create takes.
    pub number: u32,
    /// Calls from create to the first state; none of them is refused.
    pub start: &'a [M::Call],
    pub letters: &'a [Letter<M::Call>],
    /// No state is taken up any more once so many transitions are made.
    pub limit: usize,
}

/// No limit: the alphabet is small enough to reach all its states.
pub const EVERY_STATE: usize = usize::MAX;

/// A limit on transitions where all states are too many for every day, and a wider one for runs
/// with `EVERY_ORDER=long` in the environment.
pub fn first_states(every_day: usize, long: usize) -> usize {
    match std::env::var("EVERY_ORDER").as_deref() {
        Ok("long") => long,
        _ => every_day,
    }
}

/// What was met, so that a reader sees that nothing was empty.
pub struct Found<M: Machine> {
    pub states: usize,
    /// Whether every state that can be reached was reached.
    pub complete: bool,
    /// Of all transitions.
    pub tally: Tally<M>,
}

/// Room for a block.
const BLOCK: usize = 56;
/// Room for a store.
const CELLS: usize = 6;

/// Block and stores.
#[derive(Clone, Copy, PartialEq, Eq, Hash)]
struct Lasting<A, B> {
    block: [u8; BLOCK],
    one: [A; CELLS],
    other: [B; CELLS],
}

/// Those of a machine.
type Buffers<M> = Lasting<<M as Machine>::One, <M as Machine>::Other>;

/// A state, and what the watcher of a run that led here knows.
#[derive(Clone, Copy, PartialEq, Eq, Hash)]
struct Node<M: Machine> {
    lasting: Lasting<M::One, M::Other>,
    watch: M::Watch,
}

struct Search<'a, M: Machine> {
    plan: &'a Plan<'a, M>,
    known: HashSet<Node<M>>,
    queue: VecDeque<(Node<M>, usize)>,
    /// For every state but the first the one it was reached from, and by which call.
    paths: Vec<(usize, M::Call)>,
    tally: Tally<M>,
}

/// Explores by a plan. A difference or a broken law is told with the shortest script to it.
pub fn explore<M: Machine>(plan: &Plan<M>) -> Result<Found<M>, String> {
    let first = plan.first();
    let mut search = Search {
        plan,
        known: HashSet::from([first]),
        queue: VecDeque::from([(first, 0)]),
        paths: Vec::new(),
        tally: Tally::default(),
    };
    while let Some((node, number)) = search.queue.pop_front() {
        if search.tally.calls >= plan.limit {
            search.queue.push_front((node, number));
            break;
        }
        search.take_up(&node, number)?;
    }
    Ok(Found {
        states: search.known.len(),
        complete: search.queue.is_empty(),
        tally: search.tally,
    })
}

impl<M: Machine> Search<'_, M> {
    /// Makes every call of the alphabet on a state.
    fn take_up(&mut self, node: &Node<M>, number: usize) -> Result<(), String> {
        let before = self.plan.state(&node.lasting);
        for letter in self.plan.letters {
            let call = match *letter {
                Letter::Make(call) => Some(call),
                Letter::Back(change) => M::back(&before, change),
            };
            let call = match call {
                Some(call) => call,
                None => continue,
            };
            let step = self.plan.step(node, &before, call);
            let (next, answer, rows) =
                step.map_err(|finding| told(&finding, &self.script(number, call)))?;
            self.tally.note(call, answer, rows);
            if self.known.insert(next) {
                self.paths.push((number, call));
                self.queue.push_back((next, self.paths.len()));
            }
        }
        Ok(())
    }

    /// The script that leads to a state, and then this call.
    fn script(&self, mut number: usize, last: M::Call) -> Written<M> {
        let mut calls = vec![last];
        while number != 0 {
            calls.push(self.paths[number - 1].1);
            number = self.paths[number - 1].0;
        }
        calls.extend(self.plan.start.iter().rev());
        let mut script = Written::created(self.plan.lens, self.plan.number);
        calls.iter().rev().for_each(|&call| script.add(call));
        script
    }
}

impl<M: Machine> Plan<'_, M> {
    /// The state at which the exploration starts.
    fn first(&self) -> Node<M> {
        let mut lasting = Lasting {
            block: [0; BLOCK],
            one: [M::One::default(); CELLS],
            other: [M::Other::default(); CELLS],
        };
        let mut same = lasting;
        let [ours, theirs] = self.both;
        let created = (ours.create)(self.lend(&mut lasting), self.number);
        assert_eq!(created, (theirs.create)(self.lend(&mut same), self.number));
        assert!(created == 0 && lasting == same, "create: {created:#x}");
        let watch = M::Watch::starting(&self.state(&lasting), self.stores(&lasting));
        let mut node = Node { lasting, watch };
        for &call in self.start {
            let step = self.step(&node, &self.state(&node.lasting), call);
            let (next, answer, _) = step.unwrap_or_else(|finding| panic!("{call}: {finding}"));
            assert_ne!(kind(answer), REFUSED, "{call}");
            node = next;
        }
        node
    }

    /// The buffers that stand here.
    fn lend<'b>(&self, lasting: &'b mut Buffers<M>) -> Lent<'b, M> {
        Lent {
            block: &mut lasting.block[..M::BLOCK_LEN],
            one: &mut lasting.one[..self.lens[0]],
            other: &mut lasting.other[..self.lens[1]],
        }
    }

    fn stores<'b>(&self, lasting: &'b Buffers<M>) -> Stores<'b, M> {
        let [one, other] = self.lens;
        (&lasting.one[..one], &lasting.other[..other])
    }

    /// The state that stands here: calls leave nothing else.
    fn state(&self, lasting: &Buffers<M>) -> M::State {
        M::state(&lasting.block[..M::BLOCK_LEN]).expect("a call leaves a state")
    }

    /// One transition: both compared, then what they did held to the history.
    fn step(
        &self,
        node: &Node<M>,
        before: &M::State,
        call: M::Call,
    ) -> Result<(Node<M>, u64, u32), String> {
        let (mut next, mut same) = (*node, node.lasting);
        let [ours, theirs] = self.both;
        let answer = (ours.call)(self.lend(&mut next.lasting), call);
        let second = (theirs.call)(self.lend(&mut same), call);
        let (one, other) = (ours.name, theirs.name);
        if answer != second {
            let (ours, theirs) = (in_words(answer), in_words(second));
            return Err(format!("{one} {ours}, {other} {theirs}"));
        }
        if next.lasting != same {
            let place = next.lasting.first_difference(&same, M::STORES);
            return Err(format!("{one} and {other} differ: {place}"));
        }
        let quiet = M::looks(call) || kind(answer) == REFUSED;
        if quiet && next.lasting != node.lasting {
            return Err("refused or shown, yet changed".into());
        }
        let rows = next.watch.note(&Made {
            before,
            call,
            answer,
            after: &self.state(&next.lasting),
            stores: self.stores(&next.lasting),
        })?;
        M::forget_counts(&mut next.lasting.block[..M::BLOCK_LEN]);
        Ok((next, answer, rows))
    }
}

impl<A: PartialEq + fmt::Display, B: PartialEq + fmt::Display> Lasting<A, B> {
    /// Names the first place that differs. The stores have these names.
    fn first_difference(&self, others: &Lasting<A, B>, [one, other]: [&str; 2]) -> String {
        let block = differing("block", &self.block, &others.block);
        let found = block
            .or_else(|| differing(one, &self.one, &others.one))
            .or_else(|| differing(other, &self.other, &others.other));
        found.unwrap_or_else(|| "nothing".into())
    }
}

/// Names the first place at which these differ.
fn differing<C: PartialEq + fmt::Display>(name: &str, ours: &[C], theirs: &[C]) -> Option<String> {
    let place = (0..ours.len()).find(|&i| ours[i] != theirs[i])?;
    let (ours, theirs) = (&ours[place], &theirs[place]);
    Some(format!("{name} place {place}: {ours} and {theirs}"))
}

impl<M: Machine> fmt::Display for Found<M> {
    fn fmt(&self, f: &mut fmt::Formatter) -> fmt::Result {
        let (states, transitions) = (self.states, self.tally.calls);
        let reached = if self.complete { "all" } else { "first" };
        writeln!(
            f,
            "{reached} {states} states, {transitions} transitions compared"
        )?;
        write!(f, "{}", self.tally)
    }
}
