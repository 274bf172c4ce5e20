//! A plain model of the mailbox between HP-IL and HP-IB, written from its sources alone.
//!
//! It is a second opinion: one state, one function per call, no cleverness. The loop is the HP-IL
//! side, the bus is the HP-IB side. The way to the bus is what the loop leaves for the bus, the way
//! to the loop is what the bus leaves for the loop. The stores of both ways are lent at every call,
//! that of the way to the bus first; a call that never writes a store borrows it unchangeably.
//!
//! In states that calls never reach the fields decide, each by itself.
//!
//! `block` packs a state into its bytes, and `boundary` has the calls as the C functions take them.

#![forbid(unsafe_code)]

mod answer;
pub mod block;
pub mod boundary;
mod bus_side;
mod calls;
mod cell;
mod frame;
mod loop_command;
mod loop_side;
mod loop_talker;
mod news;
mod poll;
mod ring;
mod state;
mod way;

pub use answer::{Answer, Part};
pub use bus_side::BusSide;
pub use frame::{END, SERVICE};
pub use loop_side::{
    LoopSide, ACTIVE_DATA, ACTIVE_STATUS, ADDRESSED, DEVICE_ID, HOME, IDLE, UNASSIGNED,
};
pub use news::News;
pub use poll::{BusResponse, LoopResponse};
pub use ring::{Ring, LARGEST};
pub use state::Mailbox;
pub use way::Way;
