//! The bridge and its works.

mod works;

use crate::machine::{Lent, Machine, Sides};
use works::Work;

sides! {
    [u16, u8],
    {
        Create create raftershim_create create mut const const (margin: u32);
        Reset reset raftershim_reset reset mut const const ();
        WriteRegister write_register raftershim_write_register write_register mut const const
            (number: u32, value: u32);
        LineByte line_byte raftershim_line_byte line_byte mut mut const (byte: u8);
        Break take_break raftershim_break line_break mut mut const ();
        Key key raftershim_key key mut const const ();
        AskLineByte ask_line_byte raftershim_ask_line_byte ask_line_byte const const const ();
        TakeLineByte take_line_byte raftershim_take_line_byte take_line_byte mut const const
            (byte: u8);
        LoopFrame loop_frame raftershim_loop_frame loop_frame mut const mut (frame: u32);
        ShowReceive show_receive raftershim_show_receive show_receive const const const ();
        ShowTransmit show_transmit raftershim_show_transmit show_transmit const const const ();
    },
    model = ::model::boundary,
    peer = ::peer
}

static SIDES: [(&str, &Side); 4] = [
    ("archive", &ARCHIVE),
    ("model", &model::SIDE),
    ("peer", &peer::SIDE),
    ("idle", &IDLE),
];

/// The machine that is the bridge.
pub struct Bridge;

impl Machine for Bridge {
    type One = u16;
    type Other = u8;
    type Call = Call;
    type Side = Side;
    type Work = Work;
    const BLOCK: usize = ::model::block::LEN;
    const WORKS: &'static [(&'static str, Work)] = &[
        ("meter", Work::Meter),
        ("print", Work::Print),
        ("status", Work::Status),
    ];
    const OTHERS: &'static [Call] = &[
        Call::Create(8),
        Call::WriteRegister(11, 8),
        Call::Break(),
        Call::LineByte(17),
        Call::ShowReceive(),
        Call::ShowTransmit(),
        Call::LoopFrame(4 << 8 | 20),
        Call::LoopFrame(6 << 8),
        Call::Reset(),
    ];

    fn sides() -> Sides<Side> {
        &SIDES
    }

    #[inline(always)]
    unsafe fn call(side: &Side, lent: Lent<u16, u8>, call: Call) -> u64 {
        side.call(lent, call)
    }

    fn passed(side: &Side, call: Call) -> (usize, Vec<u64>) {
        side.passed(call)
    }

    fn set_up(work: Work, store: usize) -> Vec<Call> {
        work.set_up(store)
    }

    fn round(work: Work, make: &mut dyn FnMut(Call) -> u64) {
        work.round(make);
    }

    fn crosses(work: Work, call: Call, answer: u64) -> bool {
        work.crosses(call, answer)
    }
}
