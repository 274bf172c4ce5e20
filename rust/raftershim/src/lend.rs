//! Buffers lent to the C functions, and the answers that both products read alike.

use crate::{Answer, Answered, Frame, Refusal};

/// Lends the block and the two stores of a product to one C function, and gives the word that it
/// answers.
///
/// The buffers are lent by `as_mut_ptr`, or by `as_ptr` to a function that writes none of them; a
/// function that writes a buffer does not take a pointer of the second kind.
macro_rules! lend {
    ($pointer:ident, $block:expr, $first:expr, $second:expr, $function:ident $(, $argument:expr)*) => {{
        let (block, first, second) = ($block, $first, $second);
        // SAFETY: the three are borrowed slices, and the borrows hold at once and until the call
        // is over, whatever the types of the stores do. So each pointer is good for its length,
        // which counts what the slice has. Where they are exclusive borrows, the three do not
        // overlap, and nobody else uses them meanwhile. Where they are shared, nothing is written,
        // so it does no harm if they do.
        unsafe {
            $crate::raw::$function(
                block.$pointer(), block.len() as _,
                first.$pointer(), first.len() as _,
                second.$pointer(), second.len() as _
                $(, $argument)*
            )
        }
    }};
}
pub(crate) use lend;

/// The answer of a call that gives nothing.
pub(crate) fn done(answered: Answered) -> Result<(), Refusal> {
    match answered? {
        Answer::Done => Ok(()),
        _ => Err(Refusal::UNDESCRIBED),
    }
}

/// The answer of a call that gives a frame.
pub(crate) fn frame(answered: Answered) -> Result<Frame, Refusal> {
    match answered? {
        Answer::Frame(out) => Ok(out),
        _ => Err(Refusal::UNDESCRIBED),
    }
}

/// The part of a store that a word tells: the start in its upper half, the length in its lower.
pub(crate) fn part<T>(store: &[T], word: u64) -> &[T] {
    let start = (word >> 32) as usize;
    let length = (word & 0xFFFF_FFFF) as usize;
    let from_start = store.get(start..).unwrap_or_default();
    from_start.get(..length).unwrap_or_default()
}
