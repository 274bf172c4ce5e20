//! Plays a script on two implementations and compares them, whatever answers it expects.

use crate::implementation::Both;
use crate::machine::Machine;
use crate::pair::Pair;
use script::Script;

/// What a call of a script is to a machine.
pub enum Line<M: Machine> {
    /// Create on fresh stores of these lengths, with this number.
    Create([usize; 2], u32),
    /// The block holds these bytes, on the stores as they are.
    Restore(Vec<u8>),
    /// These calls, none where it is of the other machine.
    Calls(Vec<M::Call>),
}

/// A machine that scripts speak of.
pub trait Scripted: Machine {
    /// What a script has that does not begin with create: lengths and number.
    const DEFAULT: ([usize; 2], u32);

    /// What a call is to a machine with this state, if its block is one.
    fn line(call: &script::Call, state: Option<&Self::State>) -> Line<Self>;
}

/// Two implementations on fresh stores, and the answer to create.
fn created<M: Machine>(
    both: Both<M>,
    lens: [usize; 2],
    number: u32,
) -> Result<(Pair<M>, u64), String> {
    let mut pair = Pair::blank(both, lens);
    let answer = pair.recreate(number)?;
    Ok((pair, answer))
}

/// Plays a script on both, call by call; a refused create leaves what was there, and a restored
/// block is lent as it is. Gives how many calls were compared, or a sentence on what differs.
pub fn play<M: Scripted>(both: Both<M>, script: &Script) -> Result<usize, String> {
    let (lens, number) = M::DEFAULT;
    let (mut pair, _) = created(both, lens, number)?;
    let mut asked = 0;
    for step in &script.steps {
        match M::line(&step.call, pair.state().as_ref()) {
            Line::Create(lens, number) => {
                let (new, answer) = created(both, lens, number)?;
                pair = if answer == 0 { new } else { pair };
                asked += 1;
            }
            Line::Restore(block) => {
                pair = Pair::of(both, &block, pair.buffers().stores());
            }
            Line::Calls(calls) => {
                for call in calls {
                    pair.call(call)?;
                    asked += 1;
                }
            }
        }
    }
    Ok(asked)
}
