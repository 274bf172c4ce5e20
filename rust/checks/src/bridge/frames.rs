//! Frames of the loop by what they ask for.

use super::call::{frame, Call};

/// Address 1, then addressed to talk or to listen.
pub const ASSIGN: Call = frame(5, 129);
pub const TALK: Call = frame(4, 65);
pub const LISTEN: Call = frame(4, 33);
pub const UNTALK: Call = frame(4, 95);
pub const UNLISTEN: Call = frame(4, 63);
/// Device clear, and a command that only ends an active talker's sending.
pub const CLEAR: Call = frame(4, 20);
pub const OTHER_COMMAND: Call = frame(4, 0);
/// Ready frames: send data, send status, finish.
pub const SEND: Call = frame(5, 96);
pub const SEND_STATUS: Call = frame(5, 97);
pub const FINISH: Call = frame(5, 66);
pub const IDENTIFY: Call = frame(6, 0);
