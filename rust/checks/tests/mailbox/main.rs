//! The mailbox: the archive beside the model in every order of calls on the smallest stores and at
//! all edges, and with answers written by hand.

mod alphabets;
mod blocks;
mod by_hand;
mod edges;
mod every_order;
mod planted;
