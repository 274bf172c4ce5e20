//! What a store is to a run that goes round in it, whichever machine has it.

use model::boundary::FRAME;
use model::Ring;
use raftershim_checks::answer::refused;
use raftershim_checks::lent::Lent;
use raftershim_checks::machine::{Cell, Machine, Stores};

pub type Call<S> = <<S as Store>::Of as Machine>::Call;
pub type State<S> = <<S as Store>::Of as Machine>::State;

/// Lengths that are powers of two and lengths that are not, from tiny to the largest.
const LENGTHS: [usize; 8] = [3, 4, 5, 7, 8, 64, 32_767, 32_768];

/// The lengths with which a store is tried.
pub fn lengths<S: Store>() -> impl Iterator<Item = usize> {
    LENGTHS.into_iter().filter(|&len| len >= S::LEAST)
}

/// The mark of an item, above its byte: an end byte on the loop, EOI on the bus, and on the line a
/// break that follows.
pub const MARK: u16 = 1 << 8;

/// The data frame that carries an item.
pub fn frame_of(item: u16) -> u32 {
    u32::from((item & MARK) << 1 | item & 255)
}

/// The answer that is the data frame of an item.
pub fn framed_item(item: u16) -> u64 {
    FRAME << 16 | u64::from(frame_of(item))
}

/// How many cells go of those that wait, and what is handed out, where each item is one cell.
pub fn oldest_of<C: Copy + Into<u16>>(waiting: &[C]) -> (usize, Option<u16>) {
    let oldest = waiting.first().map(|&cell| cell.into());
    (usize::from(oldest.is_some()), oldest)
}

/// A call that offers an item.
pub struct Offer<S: Store> {
    pub call: Call<S>,
    /// What it adds where there is room for all of it.
    pub cells: Vec<S::Cell>,
    /// What it is answered then, the room aside.
    pub answer: u64,
    /// A call after it that marks the newest cell, if the item has a mark of that kind.
    pub mark: Option<Call<S>>,
}

/// How many cells a call removes, and whether what it hands out has the end mark, if it hands out
/// anything.
pub type Removal = (usize, Option<bool>);

/// Whether nothing was ever written in a store.
pub fn is_blank<C: Cell>(store: &[C]) -> bool {
    store.iter().all(|&cell| cell == C::default())
}

/// A store of a machine. The type itself is a name and holds nothing.
///
/// What is offered to it and what comes out of it is an item: a byte, and maybe a mark.
pub trait Store: Sized + 'static {
    type Of: Machine;
    type Cell: Cell;
    /// Which of the machine's two it is.
    const SIDE: usize;
    /// How few cells it can have.
    const LEAST: usize;
    /// How many cells the other one has, in which nothing happens.
    const OTHER: usize;
    /// The number that create takes.
    const NUMBER: u32;
    /// What makes the machine take items into the store and hand them out.
    const READY: &'static [Call<Self>];
    /// What makes it find and add the pairs that close lines, and what ends that, if it knows them. Both
    /// come while it holds nothing.
    const PAIRS: [&'static [Call<Self>]; 2] = [&[], &[]];
    const SHOW: Call<Self>;
    /// Items in a row that are put and removed across the end while pairs are found and added.
    const LOTS: &'static [&'static [u16]];
    /// What calls have to remove across the end.
    const REMOVALS: &'static [Removal];
    /// How many cells calls have to put across the end.
    const PUTS: &'static [usize] = &[1];
    /// Whether an offer is answered with the room that is left.
    const TELLS_ROOM: bool = false;
    /// The call that marks the newest cell, if that is one of its own.
    const MARKS: Option<Call<Self>> = None;
    /// The mark of items that go one by one while pairs are found and added.
    const ALONE: u16 = 0;

    /// This store, and whether the other one is as it was at first.
    fn of(stores: Stores<'_, Self::Of>) -> (&[Self::Cell], bool);

    /// This store, to be written.
    fn lent<'a>(lent: &'a mut Lent<Self::Of>) -> &'a mut [Self::Cell];

    /// The newest cell after it was marked.
    fn marked(cell: Self::Cell) -> Self::Cell {
        cell
    }

    fn ring(state: &State<Self>) -> Ring;

    /// The place of the oldest cell, to be changed.
    fn oldest(state: &mut State<Self>) -> &mut usize;

    fn offer(state: &State<Self>, item: u16) -> Offer<Self>;

    /// Whether an offer found no room, by its answer and the states before and after it.
    fn turned_away(_before: &State<Self>, answer: u64, _after: &State<Self>) -> bool {
        answer == refused(4)
    }

    /// The call that asks for the next item.
    fn take(state: &State<Self>) -> Call<Self>;

    /// The call that takes the item after that, if it is still there when it was asked for.
    fn gone(_item: u16) -> Option<Call<Self>> {
        None
    }

    /// How many cells go then of those that wait, and the item that is handed out.
    fn due(state: &State<Self>, waiting: &[Self::Cell]) -> (usize, Option<u16>);

    /// What the ask is answered if this is handed out.
    fn handed_out(item: Option<u16>) -> u64;
}
