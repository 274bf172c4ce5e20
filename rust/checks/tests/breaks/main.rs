//! A break is a wall: by hand, in every order on the smallest stores, and wrong walls that are found.

mod by_hand;
mod every_order;
mod planted;
