//! The mailbox and its works.

mod works;

use crate::machine::{Lent, Machine, Sides};
use works::Work;

sides! {
    [u16, u16],
    {
        Create create raftershim_mailbox_create create mut const const (address: u32);
        Reset reset raftershim_mailbox_reset reset mut const const ();
        LoopFrame loop_frame raftershim_mailbox_loop_frame loop_frame mut mut const (frame: u32);
        Command bus_command raftershim_mailbox_bus_command bus_command mut const const
            (command: u32);
        Byte bus_byte raftershim_mailbox_bus_byte bus_byte mut const mut (byte: u8, end: u32);
        Fetch bus_fetch raftershim_mailbox_bus_fetch bus_fetch mut const const ();
        Clear bus_clear raftershim_mailbox_bus_clear bus_clear mut const const ();
        Lines bus_lines raftershim_mailbox_bus_lines bus_lines const const const ();
        Show show raftershim_mailbox_show show const const const (side: u32);
    },
    model = ::mailbox_model::boundary
}

static SIDES: [(&str, &Side); 3] = [
    ("archive", &ARCHIVE),
    ("model", &model::SIDE),
    ("idle", &IDLE),
];

/// The machine that is the mailbox.
pub struct Mailbox;

impl Machine for Mailbox {
    type One = u16;
    type Other = u16;
    type Call = Call;
    type Side = Side;
    type Work = Work;
    const BLOCK: usize = ::mailbox_model::block::LEN;
    const WORKS: &'static [(&'static str, Work)] =
        &[("to-bus", Work::ToBus), ("to-loop", Work::ToLoop)];
    const OTHERS: &'static [Call] = &[
        Call::Create(7),
        Call::LoopFrame(4 << 8 | 20),
        Call::LoopFrame(5 << 8 | 97),
        Call::LoopFrame(6 << 8),
        Call::Command(20),
        Call::Clear(),
        Call::Lines(),
        Call::Show(0),
        Call::Show(1),
        Call::Reset(),
    ];

    fn sides() -> Sides<Side> {
        &SIDES
    }

    #[inline(always)]
    unsafe fn call(side: &Side, lent: Lent<u16, u16>, call: Call) -> u64 {
        side.call(lent, call)
    }

    fn passed(side: &Side, call: Call) -> (usize, Vec<u64>) {
        side.passed(call)
    }

    fn set_up(_: Work, _: usize) -> Vec<Call> {
        vec![Call::Create(works::BUS), works::ASSIGN]
    }

    fn round(work: Work, make: &mut dyn FnMut(Call) -> u64) {
        work.round(make);
    }

    fn crosses(work: Work, call: Call, answer: u64) -> bool {
        work.crosses(call, answer)
    }
}
