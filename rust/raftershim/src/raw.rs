//! The C functions of the archive, as its headers declare them: `raftershim.h` those of the bridge,
//! `raftershim_mailbox.h` those of the mailbox.
//!
//! [`Bridge`](crate::Bridge) and [`Mailbox`](crate::Mailbox) call them safely; this module is for a
//! caller that lends buffers of its own. Every function answers a word, which
//! [`Answer::of`](crate::Answer::of) reads for the bridge and
//! [`Answer::of_mailbox`](crate::Answer::of_mailbox) for the mailbox. The words of
//! [`raftershim_line_byte`] and [`raftershim_loop_frame`] have the room that is left too, which
//! [`Answer::room_of`](crate::Answer::room_of) reads. The lengths of blocks and what shows a store
//! are no such words.
//!
//! # Safety
//!
//! A function that takes buffers takes three, each as a pointer and a length: the block and two
//! stores. Those of the bridge are the receive store `rx`, of cells of 16 bits, and the transmit
//! store `tx`, of bytes; those of the mailbox are `to_bus` and `to_loop`, of cells of 16 bits. A
//! length has 64 bits on every target and counts bytes, or cells where a store has cells. A pointer
//! is not null, is aligned, and is good for reading its length, and for writing it where it is a
//! `*mut`. The three do not overlap, and nobody else uses them during the call. Nothing is asked of
//! what the buffers hold: a block that is not a state, or does not fit the stores, is refused. A
//! bridge or a mailbox goes on from call to call only if the three are the same at every call and
//! untouched in between.
//!
//! A cell of the receive store is a [`HeldByte`](crate::HeldByte) as a number, one of the mailbox's
//! stores a [`MailByte`](crate::MailByte).
//!
//! ```
//! use raftershim::{raw, Answer, BLOCK_LEN};
//!
//! let (mut block, mut rx, tx) = ([0; BLOCK_LEN], [0; 4], [0; 3]);
//! let (b, r, t) = (block.as_mut_ptr(), rx.as_mut_ptr(), tx.as_ptr());
//! // SAFETY: the three are separate arrays of these lengths, and the first two may be written.
//! let (created, taken) = unsafe {
//!     let created = raw::raftershim_create(b, 56, r, 4, t, 3, 1);
//!     (created, raw::raftershim_line_byte(b, 56, r, 4, t, 3, 50))
//! };
//! assert_eq!((Answer::of(created), Answer::of(taken)), (Ok(Answer::Done), Ok(Answer::Done)));
//! assert_eq!((rx[0], Answer::room_of(taken)), (50, 3));
//! ```

mod mailbox;

pub use mailbox::*;

extern "C" {
    /// The length in bytes that every block of a bridge has. It is never refused.
    ///
    /// # Safety
    ///
    /// It takes nothing and asks for nothing.
    ///
    /// ```
    /// use raftershim::raw::raftershim_block_len;
    ///
    /// // SAFETY: it takes nothing.
    /// assert_eq!(unsafe { raftershim_block_len() }, 56);
    /// ```
    pub fn raftershim_block_len() -> u64;

    /// Makes a state in the block for stores of these lengths, with this margin. What the block
    /// held does not matter. Answers done, or refusal 1.
    ///
    /// # Safety
    ///
    /// The three buffers are as the page of the module says.
    ///
    /// ```
    /// use raftershim::raw::raftershim_create;
    ///
    /// let (mut block, rx, tx) = ([0; 56], [0; 4], [0; 3]);
    /// // SAFETY: the three are separate arrays of these lengths.
    /// let word = unsafe {
    ///     raftershim_create(block.as_mut_ptr(), 56, rx.as_ptr(), 4, tx.as_ptr(), 3, 1)
    /// };
    /// assert_eq!(word, 0);
    /// ```
    pub fn raftershim_create(
        block: *mut u8,
        block_len: u64,
        rx: *const u16,
        rx_len: u64,
        tx: *const u8,
        tx_len: u64,
        margin: u32,
    ) -> u64;

    /// Gives the block what create gives for the same sizes and margin. Answers done, or refusal 2.
    ///
    /// # Safety
    ///
    /// The three buffers are as the page of the module says.
    ///
    /// ```
    /// use raftershim::raw::*;
    ///
    /// let (mut block, rx, tx) = ([0; 56], [0; 4], [0; 3]);
    /// let (b, r, t) = (block.as_mut_ptr(), rx.as_ptr(), tx.as_ptr());
    /// // SAFETY: the three are separate arrays of these lengths.
    /// let word = unsafe {
    ///     raftershim_create(b, 56, r, 4, t, 3, 1);
    ///     raftershim_key(b, 56, r, 4, t, 3);
    ///     raftershim_reset(b, 56, r, 4, t, 3)
    /// };
    /// assert_eq!((word, block[49]), (0, 0));
    /// ```
    pub fn raftershim_reset(
        block: *mut u8,
        block_len: u64,
        rx: *const u16,
        rx_len: u64,
        tx: *const u8,
        tx_len: u64,
    ) -> u64;

    /// Writes a register. Answers done, or refusal 2, 5, 6, 7, 8 or 10.
    ///
    /// # Safety
    ///
    /// The three buffers are as the page of the module says.
    ///
    /// ```
    /// use raftershim::raw::*;
    ///
    /// let (mut block, rx, tx) = ([0; 56], [0; 4], [0; 3]);
    /// let (b, r, t) = (block.as_mut_ptr(), rx.as_ptr(), tx.as_ptr());
    /// // SAFETY: the three are separate arrays of these lengths.
    /// let word = unsafe {
    ///     raftershim_create(b, 56, r, 4, t, 3, 1);
    ///     raftershim_write_register(b, 56, r, 4, t, 3, 10, 8)
    /// };
    /// assert_eq!((word, block[36]), (0, 8));
    /// ```
    pub fn raftershim_write_register(
        block: *mut u8,
        block_len: u64,
        rx: *const u16,
        rx_len: u64,
        tx: *const u8,
        tx_len: u64,
        number: u32,
        value: u32,
    ) -> u64;

    /// Takes a byte from the line. Answers done and the room of the receive store, or refusal 2.
    ///
    /// # Safety
    ///
    /// The three buffers are as the page of the module says.
    ///
    /// ```
    /// use raftershim::raw::*;
    ///
    /// let (mut block, mut rx, tx) = ([0; 56], [0; 4], [0; 3]);
    /// let (b, r, t) = (block.as_mut_ptr(), rx.as_mut_ptr(), tx.as_ptr());
    /// // SAFETY: the three are separate arrays of these lengths.
    /// let word = unsafe {
    ///     raftershim_create(b, 56, r, 4, t, 3, 1);
    ///     raftershim_line_byte(b, 56, r, 4, t, 3, 50)
    /// };
    /// assert_eq!((word, rx[0]), (0x3_0000_0000, 50));
    /// ```
    pub fn raftershim_line_byte(
        block: *mut u8,
        block_len: u64,
        rx: *mut u16,
        rx_len: u64,
        tx: *const u8,
        tx_len: u64,
        byte: u8,
    ) -> u64;

    /// Takes a break on the line. If the receive store holds anything, its newest cell becomes its
    /// byte and 256, the mark. Answers done, or refusal 2.
    ///
    /// # Safety
    ///
    /// The three buffers are as the page of the module says.
    ///
    /// ```
    /// use raftershim::raw::*;
    ///
    /// let (mut block, mut rx, tx) = ([0; 56], [0; 4], [0; 3]);
    /// let (b, r, t) = (block.as_mut_ptr(), rx.as_mut_ptr(), tx.as_ptr());
    /// // SAFETY: the three are separate arrays of these lengths.
    /// let word = unsafe {
    ///     raftershim_create(b, 56, r, 4, t, 3, 1);
    ///     raftershim_line_byte(b, 56, r, 4, t, 3, 50);
    ///     raftershim_break(b, 56, r, 4, t, 3)
    /// };
    /// assert_eq!((word, block[47], rx[0]), (0, 1, 256 + 50));
    /// ```
    pub fn raftershim_break(
        block: *mut u8,
        block_len: u64,
        rx: *mut u16,
        rx_len: u64,
        tx: *const u8,
        tx_len: u64,
    ) -> u64;

    /// Takes a press of the MSRQ key. Answers done, or refusal 2.
    ///
    /// # Safety
    ///
    /// The three buffers are as the page of the module says.
    ///
    /// ```
    /// use raftershim::raw::*;
    ///
    /// let (mut block, rx, tx) = ([0; 56], [0; 4], [0; 3]);
    /// let (b, r, t) = (block.as_mut_ptr(), rx.as_ptr(), tx.as_ptr());
    /// // SAFETY: the three are separate arrays of these lengths.
    /// let word = unsafe {
    ///     raftershim_create(b, 56, r, 4, t, 3, 1);
    ///     raftershim_key(b, 56, r, 4, t, 3)
    /// };
    /// assert_eq!((word, block[49]), (0, 1));
    /// ```
    pub fn raftershim_key(
        block: *mut u8,
        block_len: u64,
        rx: *const u16,
        rx_len: u64,
        tx: *const u8,
        tx_len: u64,
    ) -> u64;

    /// Says which line byte is next. Answers that byte, none, or refusal 2. It writes nothing.
    ///
    /// # Safety
    ///
    /// The three buffers are as the page of the module says.
    ///
    /// ```
    /// use raftershim::raw::*;
    ///
    /// let (mut block, rx, tx) = ([0; 56], [0; 4], [0; 3]);
    /// let (b, r, t) = (block.as_mut_ptr(), rx.as_ptr(), tx.as_ptr());
    /// // SAFETY: the three are separate arrays of these lengths.
    /// let word = unsafe {
    ///     raftershim_create(b, 56, r, 4, t, 3, 1);
    ///     raftershim_ask_line_byte(b, 56, r, 4, t, 3)
    /// };
    /// assert_eq!(word, 0x1_0000);
    /// ```
    pub fn raftershim_ask_line_byte(
        block: *const u8,
        block_len: u64,
        rx: *const u16,
        rx_len: u64,
        tx: *const u8,
        tx_len: u64,
    ) -> u64;

    /// Takes the line byte of this name, if it is the next one. Answers done, or refusal 2 or 12.
    ///
    /// Ask for the byte, send it, and take it when the port has it, with no other call in between.
    /// Else the take of a byte that is on the line already can be refused: it then goes out twice,
    /// or a stop is not recorded, and no go follows it. A [`NextLineByte`](crate::NextLineByte)
    /// keeps that order by its type.
    ///
    /// # Safety
    ///
    /// The three buffers are as the page of the module says.
    ///
    /// ```
    /// use raftershim::raw::*;
    ///
    /// let (mut block, mut rx, tx) = ([0; 56], [0; 4], [0; 3]);
    /// let (b, r, t) = (block.as_mut_ptr(), rx.as_mut_ptr(), tx.as_ptr());
    /// // SAFETY: the three are separate arrays of these lengths.
    /// let words = unsafe {
    ///     raftershim_create(b, 56, r, 4, t, 3, 1);
    ///     for byte in *b"123" {
    ///         raftershim_line_byte(b, 56, r, 4, t, 3, byte);
    ///     }
    ///     // The stop is next. Another byte is refused.
    ///     [17, 19].map(|byte| raftershim_take_line_byte(b, 56, r, 4, t, 3, byte))
    /// };
    /// assert_eq!(words, [0x4_000C, 0]);
    /// ```
    pub fn raftershim_take_line_byte(
        block: *mut u8,
        block_len: u64,
        rx: *const u16,
        rx_len: u64,
        tx: *const u8,
        tx_len: u64,
        byte: u8,
    ) -> u64;

    /// Takes a frame from the loop. Answers the one frame that goes on and the room of the transmit
    /// store, or refusal 2, 3 or 4.
    ///
    /// # Safety
    ///
    /// The three buffers are as the page of the module says.
    ///
    /// ```
    /// use raftershim::raw::*;
    ///
    /// let (mut block, rx, mut tx) = ([0; 56], [0; 4], [0; 3]);
    /// let (b, r, t) = (block.as_mut_ptr(), rx.as_ptr(), tx.as_mut_ptr());
    /// // SAFETY: the three are separate arrays of these lengths.
    /// let word = unsafe {
    ///     raftershim_create(b, 56, r, 4, t, 3, 1);
    ///     raftershim_loop_frame(b, 56, r, 4, t, 3, 0x581)
    /// };
    /// assert_eq!(word, 0x3_0003_0582);
    /// ```
    pub fn raftershim_loop_frame(
        block: *mut u8,
        block_len: u64,
        rx: *const u16,
        rx_len: u64,
        tx: *mut u8,
        tx_len: u64,
        frame: u32,
    ) -> u64;

    /// Shows the receive store. Answers where the longest unbroken run of cells from the oldest one
    /// is: in bits 32 to 63 the place where it starts, in bits 0 to 31 its length, both in cells. The
    /// answer is 0 if nothing is held, or the block is not a state that fits the stores. It writes
    /// nothing and is never refused.
    ///
    /// # Safety
    ///
    /// The three buffers are as the page of the module says.
    ///
    /// ```
    /// use raftershim::raw::*;
    ///
    /// let (mut block, mut rx, tx) = ([0; 56], [0; 4], [0; 3]);
    /// let (b, r, t) = (block.as_mut_ptr(), rx.as_mut_ptr(), tx.as_ptr());
    /// // SAFETY: the three are separate arrays of these lengths.
    /// let word = unsafe {
    ///     raftershim_create(b, 56, r, 4, t, 3, 1);
    ///     raftershim_line_byte(b, 56, r, 4, t, 3, 50);
    ///     raftershim_show_receive(b, 56, r, 4, t, 3)
    /// };
    /// assert_eq!(word, 1);
    /// ```
    pub fn raftershim_show_receive(
        block: *const u8,
        block_len: u64,
        rx: *const u16,
        rx_len: u64,
        tx: *const u8,
        tx_len: u64,
    ) -> u64;

    /// Shows the transmit store in the same way, in bytes.
    ///
    /// # Safety
    ///
    /// The three buffers are as the page of the module says.
    ///
    /// ```
    /// use raftershim::raw::*;
    ///
    /// let (mut block, rx, tx) = ([0; 56], [0; 4], [0; 3]);
    /// let (b, r, t) = (block.as_mut_ptr(), rx.as_ptr(), tx.as_ptr());
    /// // SAFETY: the three are separate arrays of these lengths.
    /// let word = unsafe {
    ///     raftershim_create(b, 56, r, 4, t, 3, 1);
    ///     raftershim_show_transmit(b, 56, r, 4, t, 3)
    /// };
    /// assert_eq!(word, 0);
    /// ```
    pub fn raftershim_show_transmit(
        block: *const u8,
        block_len: u64,
        rx: *const u16,
        rx_len: u64,
        tx: *const u8,
        tx_len: u64,
    ) -> u64;
}
