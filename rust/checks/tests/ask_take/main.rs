//! Ask, then take: by hand, in every order on the smallest stores, and wrong bridges that are
//! found.

mod by_hand;
mod every_order;
mod planted;
