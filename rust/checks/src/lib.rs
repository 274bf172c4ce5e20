//! What the tests share: two implementations of a machine side by side on equal buffers, draws at
//! random, watchers that hold both to the laws by history of their own, and the history of a line
//! that holds the crate's meter to the readings that it was.
//!
//! A machine is the bridge or the mailbox. What is said of any machine stands here, what one of them
//! is in its own folder. The tests are in the folder `tests`, each with a word at its top; all print
//! what they counted: `cargo test -p raftershim-checks -- --nocapture`.

pub mod answer;
pub mod bridge;
pub mod damage;
pub mod draw;
pub mod drive;
pub mod edges;
pub mod explore;
pub mod few;
pub mod implementation;
pub mod lent;
pub mod machine;
pub mod mailbox;
pub mod pair;
pub mod part;
pub mod planted;
pub mod played;
pub mod random;
pub mod runs;
pub mod shrink;
pub mod tally;
pub mod written;
