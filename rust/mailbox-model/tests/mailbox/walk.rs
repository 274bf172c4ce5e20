//! Every order of an alphabet of calls, through all states that it reaches.

use crate::history::{History, Seen};
use crate::world::World;
use raftershim_mailbox_model::{Answer, ACTIVE_DATA, SERVICE};
use std::collections::HashSet;

/// A call of the alphabet.
#[derive(Clone, Copy, Debug, PartialEq, Eq)]
pub enum Call {
    Frame(u16),
    /// Our frame under way comes back, with these of its bits changed.
    Return(u16),
    Order(u8),
    Byte(u8, bool),
    Fetch,
    BusClear,
    Reset,
}

/// Our frame comes back unchanged.
pub const ECHO: Call = Call::Return(0);
/// Our frame comes back with another device's request, or without ours.
pub const ECHO_WITH_SERVICE: Call = Call::Return(SERVICE);
/// Our frame comes back damaged.
pub const DAMAGE: Call = Call::Return(1);

/// A frame written "control,data".
pub const fn frame(control: u16, data: u16) -> Call {
    Call::Frame(control << 8 | data)
}

impl Call {
    /// The frame that the loop offers by this call.
    pub fn frame<const B: usize, const L: usize>(self, world: &World<B, L>) -> Option<u16> {
        match self {
            Call::Frame(frame) => Some(frame),
            Call::Return(changed) => Some(world.mailbox.loop_side.under_way ^ changed),
            _ => None,
        }
    }

    /// Whether the call can come: a return only while a frame of ours is under way.
    fn can_come<const B: usize, const L: usize>(self, world: &World<B, L>) -> bool {
        !matches!(self, Call::Return(_)) || world.mailbox.loop_side.talker >= ACTIVE_DATA
    }
}

/// How a mailbox makes a call; wrong ones are planted in its place.
pub type Step<const B: usize, const L: usize> = fn(&mut World<B, L>, Call) -> Answer;

/// The model's own step.
pub fn right<const B: usize, const L: usize>(world: &mut World<B, L>, call: Call) -> Answer {
    if let Some(frame) = call.frame(world) {
        return world.whole_frame(frame.into());
    }
    match call {
        Call::Order(command) => world.command(command.into()),
        Call::Byte(byte, mark) => world.byte(byte, mark),
        Call::Fetch => world.fetch(),
        Call::BusClear => world.bus_clear(),
        _ => world.reset(),
    }
}

/// Makes every call in every state that is reached, and judges each by the history that led there.
/// The answer is how many states there are, or the law that a call broke, and where.
pub fn walk<const B: usize, const L: usize>(
    alphabet: &[Call],
    step: Step<B, L>,
) -> Result<usize, (&'static str, String)> {
    let start = (World::<B, L>::new(), History::default());
    let mut reached = HashSet::from([(start.0, start.1.news)]);
    let mut open = vec![start];
    while let Some((before, history)) = open.pop() {
        for &call in alphabet.iter().filter(|call| call.can_come(&before)) {
            let mut after = before;
            let answer = step(&mut after, call);
            let seen = Seen {
                before: &before,
                call,
                answer,
                after: &after,
            };
            let mut history = history.clone();
            if let Err(law) = history.judge(&seen) {
                return Err((law, format!("{seen:?} after {history:?}")));
            }
            // What waits is what the history says, so the rest of it tells states apart.
            if reached.insert((after, history.news)) {
                open.push((after, history));
            }
        }
    }
    Ok(reached.len())
}
