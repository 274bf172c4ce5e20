//! Readers with a fault planted: both ways of checking find every one.

use crate::at_random::runs;
use crate::both::{our_meter, OurMeter, Sizes};
use crate::every_order::{go_through, BREAKS, BYTES_AND_READS, PORT_GAPS};
use raftershim::{Answer, Side, BLOCK_LEN};
use raftershim_checks::bridge::call::Call;
use raftershim_checks::bridge::told::{Act, Heard, Reader, Told, Worth};

/// The crate's meter, with what it tells made wrong.
#[derive(Clone)]
struct Wrong {
    meter: OurMeter,
    fault: Fault,
    /// The count of bytes lost at the last reading, whether the last one had a gap, or whether the
    /// port lost a byte or a break came since.
    noted: u32,
}

#[derive(Clone, Copy)]
enum Fault {
    /// Every reading that has ended is called whole: 25 is spoken.
    Unwarned,
    /// The count of bytes lost is compared around each reading.
    ByCount,
    /// The reading after the one with a gap is called bad in its place.
    OneLate,
    /// A reading that has not ended is called whole.
    NotAwaited,
    /// A byte that the port lost is not heard of.
    PortUnheard,
    /// A byte that the port lost is said of the reading that is told next.
    PortTooEarly,
    /// A reading tells the room that was before it.
    RoomBefore,
    /// What a break cut off is told together with the reading after it.
    BreakUnheard,
    /// What a break cut off is called whole.
    CutUnwarned,
    /// After a break the reading that is told next is called bad.
    BreakTooLong,
}

impl Wrong {
    fn worth(&mut self, worth: Worth) -> Worth {
        let gap = |gap| [Worth::Whole, Worth::Gap][usize::from(gap)];
        let lost = self.meter.bridge().state().expect("a fitting state").lost;
        match (self.fault, worth) {
            (Fault::NotAwaited, Worth::NotEnded) => Worth::Whole,
            (_, Worth::NotEnded) | (Fault::NotAwaited, _) => worth,
            (Fault::Unwarned, _) => Worth::Whole,
            (Fault::PortUnheard | Fault::RoomBefore | Fault::BreakUnheard, _) => worth,
            (Fault::PortTooEarly | Fault::BreakTooLong, _) => {
                gap(std::mem::take(&mut self.noted) == 1 || worth == Worth::Gap)
            }
            (Fault::CutUnwarned, _) => {
                gap(std::mem::take(&mut self.noted) == 0 && worth == Worth::Gap)
            }
            (Fault::ByCount, _) => gap(std::mem::replace(&mut self.noted, lost) != lost),
            (Fault::OneLate, _) => {
                let bad = u32::from(worth == Worth::Gap);
                gap(std::mem::replace(&mut self.noted, bad) == 1)
            }
        }
    }
}

impl Reader for Wrong {
    fn act(&mut self, act: Act) -> Heard {
        if let (Act::Gap, Fault::PortUnheard | Fault::PortTooEarly) = (act, self.fault) {
            self.noted = 1;
            return (Told::Answer(Ok(Answer::Done)), None);
        }
        let broken = act == Act::Call(Call::Break);
        match self.fault {
            Fault::CutUnwarned | Fault::BreakTooLong | Fault::BreakUnheard if broken => {
                self.noted = 1;
            }
            _ => {}
        }
        let before = self.meter.bridge().room(Side::Receive).ok();
        match (self.meter.act(act), self.fault) {
            ((Told::Reading(worth, text), _), Fault::RoomBefore) => {
                (Told::Reading(worth, text), before)
            }
            ((Told::Reading(Worth::Gap, text), _), Fault::BreakUnheard) if self.noted == 1 => {
                self.noted = 0;
                joined(text, self.meter.act(act))
            }
            ((Told::Reading(worth, text), room), _) => {
                (Told::Reading(self.worth(worth), text), room)
            }
            (heard, _) => heard,
        }
    }

    fn block(&self) -> [u8; BLOCK_LEN] {
        self.meter.block()
    }
}

/// A reading with this text before its own.
fn joined(mut text: Vec<u8>, heard: Heard) -> Heard {
    match heard {
        (Told::Reading(worth, more), room) => {
            text.extend(more);
            (Told::Reading(worth, text), room)
        }
        heard => heard,
    }
}

fn wrong(sizes: Sizes, fault: Fault) -> Wrong {
    Wrong {
        meter: our_meter(sizes),
        fault,
        noted: 0,
    }
}

#[test]
fn every_order_finds_each_fault() {
    let faults = [
        (Fault::Unwarned, BYTES_AND_READS),
        (Fault::ByCount, BYTES_AND_READS),
        (Fault::OneLate, BYTES_AND_READS),
        (Fault::NotAwaited, BYTES_AND_READS),
        (Fault::PortUnheard, PORT_GAPS),
        (Fault::PortTooEarly, PORT_GAPS),
        (Fault::RoomBefore, BYTES_AND_READS),
        (Fault::BreakUnheard, BREAKS),
        (Fault::CutUnwarned, BREAKS),
        (Fault::BreakTooLong, BREAKS),
    ];
    for (fault, plan) in faults {
        let reader = wrong(plan.sizes, fault);
        let finding = go_through(&plan, reader).unwrap_err();
        println!("readings, a planted fault: {finding}");
    }
}

#[test]
fn runs_at_random_find_each_fault() {
    let makes: [fn(Sizes) -> Wrong; 10] = [
        |sizes| wrong(sizes, Fault::Unwarned),
        |sizes| wrong(sizes, Fault::ByCount),
        |sizes| wrong(sizes, Fault::OneLate),
        |sizes| wrong(sizes, Fault::NotAwaited),
        |sizes| wrong(sizes, Fault::PortUnheard),
        |sizes| wrong(sizes, Fault::PortTooEarly),
        |sizes| wrong(sizes, Fault::RoomBefore),
        |sizes| wrong(sizes, Fault::BreakUnheard),
        |sizes| wrong(sizes, Fault::CutUnwarned),
        |sizes| wrong(sizes, Fault::BreakTooLong),
    ];
    for make in makes {
        let finding = runs(make, 100).unwrap_err();
        println!("readings at random, a planted fault: {finding}");
    }
}
