//! The mailbox model held to its rules: point by point, row by row of the manual's two tables of
//! messages, and in every order of calls on tiny stores.

mod block;
mod bus_side;
mod bus_table;
mod draw;
mod every_order;
mod fitting;
mod history;
mod loop_listener;
mod loop_side;
mod loop_table;
mod planted;
mod product;
mod status;
mod walk;
mod world;
