//! The calls by name, and alphabets of them.

use raftershim_checks::explore::{explore, Found, Letter, Plan};
use raftershim_checks::implementation::Both;
use raftershim_checks::mailbox::call::{frame, Call};
use raftershim_checks::mailbox::{Pair, TheMailbox};
use Call::{Byte, Clear, Command, Fetch, Lines, Reset, Show};

/// The bus address of every mailbox here.
pub const BUS: u32 = 7;
/// A correct return, one with another service bit, and two damaged ones.
const RETURNS: [Letter<Call>; 4] = [
    Letter::Back(0),
    Letter::Back(1 << 8),
    Letter::Back(1),
    Letter::Back(2 << 8),
];
/// On the loop, by the address that an unassigned mailbox answers to.
pub const LISTEN: Call = frame(4, 47);
pub const TALK: Call = frame(4, 79);
pub const UNLISTEN: Call = frame(4, 63);
pub const UNTALK: Call = frame(4, 95);
/// Device clear, the same of a listener, interface clear, and a command that is none of ours.
pub const CLEAR: Call = frame(4, 20);
pub const SELECTED_CLEAR: Call = frame(4, 4);
pub const INTERFACE_CLEAR: Call = frame(4, 144);
pub const OTHER_COMMAND: Call = frame(4, 0);
pub const ENABLE_NOT_READY: Call = frame(4, 15);
/// Ready frames: send data, send status, both identities, finish or not ready.
pub const SEND: Call = frame(5, 96);
pub const SEND_STATUS: Call = frame(5, 97);
pub const SEND_ID: Call = frame(5, 98);
pub const SEND_ACCESSORY: Call = frame(5, 99);
pub const NOT_READY: Call = frame(5, 66);
pub const IDENTIFY: Call = frame(6, 0);
/// The same on the bus.
pub const BUS_LISTEN: Call = Command(32 + BUS);
pub const BUS_TALK: Call = Command(64 + BUS);
pub const BUS_UNLISTEN: Call = Command(63);
pub const BUS_UNTALK: Call = Command(95);
pub const BUS_DEVICE_CLEAR: Call = Command(20);
pub const BUS_SELECTED_CLEAR: Call = Command(4);
pub const SERIAL_POLL: Call = Command(24);
pub const SERIAL_POLL_ENDS: Call = Command(25);
pub const CONFIGURE: Call = Command(5);

/// An alphabet, and the stores on which it is explored.
pub struct Alphabet<'a> {
    pub lens: [usize; 2],
    pub calls: &'a [Call],
    pub limit: usize,
}

impl Alphabet<'_> {
    /// Explores with these two, with all calls and all returns.
    pub fn explored(&self, both: Both<TheMailbox>) -> Result<Found<TheMailbox>, String> {
        let calls = self.calls.iter().copied().map(Letter::Make);
        let letters: Vec<Letter<Call>> = calls.chain(RETURNS).collect();
        explore(&Plan {
            both,
            lens: self.lens,
            number: BUS,
            start: &[],
            letters: &letters,
            limit: self.limit,
        })
    }
}

/// What moves bytes on both ways.
pub const BOTH_WAYS: [Call; 14] = [
    LISTEN,
    TALK,
    frame(0, 1),
    frame(2, 2),
    SEND,
    CLEAR,
    BUS_LISTEN,
    BUS_TALK,
    Byte(1, 0),
    Byte(2, 1),
    Fetch,
    BUS_DEVICE_CLEAR,
    Show(0),
    Show(1),
];

/// What a listener of the loop hears, with not ready.
pub const LISTENING: [Call; 19] = [
    LISTEN,
    UNLISTEN,
    ENABLE_NOT_READY,
    OTHER_COMMAND,
    SELECTED_CLEAR,
    CLEAR,
    NOT_READY,
    frame(5, 64),
    frame(0, 1),
    frame(1, 1),
    frame(2, 1),
    frame(3, 2),
    IDENTIFY,
    BUS_TALK,
    Fetch,
    Lines,
    BUS_LISTEN,
    Byte(1, 0),
    Show(0),
];

/// What the loop asks of a talker, with status under way.
pub const TALKING: [Call; 19] = [
    TALK,
    UNTALK,
    OTHER_COMMAND,
    INTERFACE_CLEAR,
    SEND,
    SEND_STATUS,
    SEND_ACCESSORY,
    NOT_READY,
    IDENTIFY,
    frame(1, 9),
    BUS_LISTEN,
    BUS_UNLISTEN,
    BUS_SELECTED_CLEAR,
    BUS_DEVICE_CLEAR,
    Byte(1, 0),
    Byte(2, 1),
    Clear,
    Lines,
    Show(1),
];

/// Serial polls of the bus, with clears.
pub const SERIAL_POLLS: [Call; 20] = [
    LISTEN,
    UNLISTEN,
    CLEAR,
    frame(0, 1),
    frame(2, 2),
    SERIAL_POLL,
    SERIAL_POLL_ENDS,
    BUS_TALK,
    BUS_UNTALK,
    BUS_LISTEN,
    Command(0),
    Command(64),
    Command(32),
    BUS_DEVICE_CLEAR,
    Clear,
    Fetch,
    Lines,
    Byte(1, 0),
    Show(0),
    Reset,
];

/// A mailbox in which something waits on both ways, listener on both sides.
pub fn used(to_bus: usize, to_loop: usize) -> Pair {
    let mut pair = Pair::create(to_bus, to_loop, BUS);
    for call in [
        frame(4, 47),
        frame(2, 65),
        Call::Command(32 + BUS),
        Call::Byte(50, 0),
    ] {
        pair.ask(call);
    }
    pair
}
