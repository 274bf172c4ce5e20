//! A mailbox together with its two stores, and short names for calls and answers.

use raftershim_mailbox_model::{Answer, Mailbox, Part, Ring};

/// The bus address of every mailbox here.
pub const BUS: u8 = 7;
/// What the cells have before anything is written.
pub const UNTOUCHED: u16 = 0xFFFF;

/// A mailbox with a store of `B` cells to the bus and one of `L` cells to the loop.
#[derive(Clone, Copy, Debug, PartialEq, Eq, Hash)]
pub struct World<const B: usize, const L: usize> {
    pub mailbox: Mailbox,
    pub to_bus: [u16; B],
    pub to_loop: [u16; L],
}

/// The answer that is a frame, written "control,data".
pub fn f(control: u16, data: u16) -> Answer {
    Answer::Frame(control << 8 | data)
}

/// The answer that is a byte for the bus without the end mark.
pub fn byte(byte: u8) -> Answer {
    Answer::Byte { byte, end: false }
}

/// The answer that is a byte for the bus with the end mark.
pub fn end(byte: u8) -> Answer {
    Answer::Byte { byte, end: true }
}

/// The answer of the bus lines.
pub fn lines(srq: bool, poll: u8) -> Answer {
    Answer::Lines { srq, poll }
}

/// What a ring holds of a store, oldest first, without the bits that do not count.
fn waiting(ring: Ring, store: &[u16]) -> Vec<u16> {
    let place = |index| (ring.oldest + index) % store.len();
    (0..ring.held).map(|i| store[place(i)] & 511).collect()
}

impl<const B: usize, const L: usize> World<B, L> {
    pub fn new() -> World<B, L> {
        let (to_bus, to_loop) = ([UNTOUCHED; B], [UNTOUCHED; L]);
        let mailbox = Mailbox::create(&to_bus, &to_loop, u32::from(BUS)).expect("sizes obeyed");
        World {
            mailbox,
            to_bus,
            to_loop,
        }
    }

    /// A loop frame, written "control,data".
    pub fn frame(&mut self, control: u32, data: u32) -> Answer {
        self.whole_frame(control << 8 | data)
    }

    pub fn whole_frame(&mut self, frame: u32) -> Answer {
        self.mailbox
            .loop_frame(&mut self.to_bus, &self.to_loop, frame)
    }

    /// Commands of the loop, which all go on unchanged.
    pub fn commands(&mut self, commands: &[u16]) {
        for &command in commands {
            assert_eq!(self.frame(4, u32::from(command)), f(4, command));
        }
    }

    /// Our frame under way comes back unchanged.
    pub fn echo(&mut self) -> Answer {
        self.whole_frame(u32::from(self.mailbox.loop_side.under_way))
    }

    pub fn command(&mut self, command: u32) -> Answer {
        let (to_bus, to_loop) = (&self.to_bus, &self.to_loop);
        self.mailbox.bus_command(to_bus, to_loop, command)
    }

    /// Commands of the bus.
    pub fn orders(&mut self, commands: &[u8]) {
        for &command in commands {
            assert_eq!(self.command(u32::from(command)), Answer::Done);
        }
    }

    pub fn byte(&mut self, byte: u8, mark: bool) -> Answer {
        let (to_bus, to_loop) = (&self.to_bus, &mut self.to_loop);
        self.mailbox.bus_byte(to_bus, to_loop, byte, mark)
    }

    pub fn fetch(&mut self) -> Answer {
        self.mailbox.bus_fetch(&self.to_bus, &self.to_loop)
    }

    pub fn bus_clear(&mut self) -> Answer {
        self.mailbox.bus_clear(&self.to_bus, &self.to_loop)
    }

    pub fn lines(&self) -> Answer {
        self.mailbox.bus_lines(&self.to_bus, &self.to_loop)
    }

    pub fn reset(&mut self) -> Answer {
        self.mailbox.reset(&self.to_bus, &self.to_loop)
    }

    pub fn show(&self, side: u32) -> Part {
        self.mailbox.show(&self.to_bus, &self.to_loop, side)
    }

    pub fn fits(&self) -> bool {
        self.mailbox.fits(&self.to_bus, &self.to_loop)
    }

    /// What waits for the bus.
    pub fn for_bus(&self) -> Vec<u16> {
        waiting(self.mailbox.to_bus.ring, &self.to_bus)
    }

    /// What waits for the loop.
    pub fn for_loop(&self) -> Vec<u16> {
        waiting(self.mailbox.to_loop.ring, &self.to_loop)
    }

    /// Bytes left by the loop, whose listener the mailbox then is.
    pub fn left_by_loop(mut self, bytes: &[u8]) -> Self {
        self.commands(&[47]);
        for &byte in bytes {
            assert!(matches!(self.frame(0, u32::from(byte)), Answer::Frame(_)));
        }
        self
    }

    /// Bytes left by the bus, whose listener the mailbox then is.
    pub fn left_by_bus(mut self, bytes: &[u8]) -> Self {
        self.orders(&[32 + BUS]);
        for &byte in bytes {
            assert_eq!(self.byte(byte, false), Answer::Done);
        }
        self
    }
}
