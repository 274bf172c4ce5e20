//! The readings that a meter gives, beside the history of its line: every order of what can happen
//! on tiny stores, at random on larger ones, and the story of the swallowed point.

mod at_random;
mod both;
mod edges;
mod every_order;
mod planted;
mod story;
