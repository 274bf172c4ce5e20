//! A bridge in plain Rust behind the boundary of the C functions.

/// Create and the other calls of a crate, as functions of the lent buffers.
macro_rules! behind {
    ($boundary:path) => {
        use crate::bridge::call::Call;
        use crate::bridge::Lent;
        use $boundary as boundary;

        /// Creates a state in the block.
        pub fn create(lent: Lent, margin: u32) -> u64 {
            boundary::create(lent.block, lent.one, lent.other, margin)
        }

        /// Makes a call.
        pub fn call(lent: Lent, call: Call) -> u64 {
            let Lent {
                block,
                one: rx,
                other: tx,
            } = lent;
            match call {
                Call::Ask => boundary::ask_line_byte(block, rx, tx),
                Call::Take(byte) => boundary::take_line_byte(block, rx, tx, byte),
                Call::Line(byte) => boundary::line_byte(block, rx, tx, byte),
                Call::Frame(frame) => boundary::loop_frame(block, rx, tx, frame),
                Call::Break => boundary::line_break(block, rx, tx),
                Call::Key => boundary::key(block, rx, tx),
                Call::Register(number, value) => {
                    boundary::write_register(block, rx, tx, number, value)
                }
                Call::Reset => boundary::reset(block, rx, tx),
                Call::ShowReceive => boundary::show_receive(block, rx, tx),
                Call::ShowTransmit => boundary::show_transmit(block, rx, tx),
            }
        }
    };
}
