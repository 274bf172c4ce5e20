//! All sides in step: every answer, the block and both stores, compared after every call.

use crate::desk::Desk;
use crate::machine::Machine;
use crate::round::{Round, Step};

/// Makes one call on every side, and tells the difference if there is one.
fn same<M: Machine>(desks: &mut [Desk<M>], step: &Step<M::Call>) -> Result<(), String> {
    let call = step.call;
    let answers: Vec<u64> = desks.iter_mut().map(|desk| desk.call(call)).collect();
    if answers.iter().any(|&answer| answer != step.answer) {
        return Err(format!("{call:?}: the answers are {answers:x?}"));
    }
    if desks.iter().any(|desk| !desk.same(&desks[0])) {
        return Err(format!("{call:?}: the blocks or stores differ"));
    }
    Ok(())
}

/// Makes the set-up and the rounds on every side, and gives how many calls were compared.
pub fn calls<M: Machine>(
    sides: Vec<M::Side>,
    store: usize,
    round: &Round<M::Call>,
    rounds: usize,
) -> Result<usize, String> {
    let desks = sides.into_iter().map(|side| Desk::new(side, store));
    let mut desks: Vec<Desk<M>> = desks.collect();
    for step in &round.set_up {
        same(&mut desks, step)?;
    }
    for _ in 0..rounds {
        for step in &round.steps {
            same(&mut desks, step)?;
        }
    }
    Ok(round.set_up.len() + rounds * round.steps.len())
}

#[cfg(test)]
mod tests {
    use super::*;
    use crate::bridge::{self, Bridge};
    use crate::mailbox::{self, Mailbox};
    use crate::round::written_down;

    /// What is compared for the first work of a machine with this side beside its own.
    fn beside<M: Machine>(side: M::Side) -> Result<usize, String> {
        let round = written_down::<M>(M::WORKS[0].1, 64);
        let mut sides = M::answering();
        sides.push(side);
        calls::<M>(sides, 64, &round, 3)
    }

    #[test]
    fn a_bridge_that_differs_is_found() {
        let (peer, idle) = (bridge::peer::SIDE, bridge::IDLE);
        assert!(beside::<Bridge>(peer).is_ok());
        // A register is answered as it should be, and is not written.
        let quiet = bridge::Side {
            write_register: idle.write_register,
            ..peer
        };
        let told = beside::<Bridge>(quiet).expect_err("a register is missing");
        assert_eq!(told, "WriteRegister(10, 8): the blocks or stores differ");
        // A line byte is answered done, without the room that is left.
        let mute = bridge::Side {
            line_byte: idle.line_byte,
            ..peer
        };
        let told = beside::<Bridge>(mute).expect_err("the room is missing");
        assert!(told.starts_with("LineByte(50): the answers are"), "{told}");
        let mute = bridge::Side {
            loop_frame: idle.loop_frame,
            ..peer
        };
        let told = beside::<Bridge>(mute).expect_err("a frame is missing");
        assert!(
            told.starts_with("LoopFrame(1409): the answers are"),
            "{told}"
        );
    }

    #[test]
    fn a_line_byte_that_is_not_said_or_not_taken_is_found() {
        let (peer, idle) = (bridge::peer::SIDE, bridge::IDLE);
        let print = written_down::<Bridge>(Bridge::work("print").expect("a work"), 64);
        // Five bytes of the loop and two that end the line.
        assert_eq!(print.bytes, 7);
        let beside = |side| {
            let mut sides = Bridge::answering();
            sides.push(side);
            calls::<Bridge>(sides, 64, &print, 3)
        };
        assert!(beside(peer).is_ok());
        let mute = bridge::Side {
            ask_line_byte: idle.ask_line_byte,
            ..peer
        };
        let told = beside(mute).expect_err("a byte is not said");
        assert!(told.starts_with("AskLineByte: the answers are"), "{told}");
        let deaf = bridge::Side {
            take_line_byte: idle.take_line_byte,
            ..peer
        };
        let told = beside(deaf).expect_err("a byte is not taken");
        assert_eq!(told, "TakeLineByte(86): the blocks or stores differ");
    }

    #[test]
    fn a_mailbox_that_differs_is_found() {
        let (model, idle) = (mailbox::model::SIDE, mailbox::IDLE);
        assert!(beside::<Mailbox>(model).is_ok());
        // A command is answered as it should be, and is not heeded.
        let deaf = mailbox::Side {
            bus_command: idle.bus_command,
            ..model
        };
        let told = beside::<Mailbox>(deaf).expect_err("a command is missing");
        assert_eq!(told, "Command(71): the blocks or stores differ");
        let mute = mailbox::Side {
            bus_fetch: idle.bus_fetch,
            ..model
        };
        let told = beside::<Mailbox>(mute).expect_err("a byte is missing");
        assert!(told.starts_with("Fetch: the answers are"), "{told}");
    }
}
