//! The C functions of the mailbox. The page of the module above says what is asked of the buffers.

extern "C" {
    /// The length in bytes that every block of a mailbox has. It is never refused.
    ///
    /// # Safety
    ///
    /// It takes nothing and asks for nothing.
    ///
    /// ```
    /// use raftershim::raw::raftershim_mailbox_block_len;
    ///
    /// // SAFETY: it takes nothing.
    /// assert_eq!(unsafe { raftershim_mailbox_block_len() }, 41);
    /// ```
    pub fn raftershim_mailbox_block_len() -> u64;

    /// Makes a state in the block for stores of these lengths, with this address on the bus. What
    /// the block held does not matter. Answers done, or refusal 1.
    ///
    /// # Safety
    ///
    /// The three buffers are as the page of the module says.
    ///
    /// ```
    /// use raftershim::raw::*;
    ///
    /// let (mut block, to_bus, to_loop) = ([0; 41], [0; 4], [0; 3]);
    /// let (b, t, l) = (block.as_mut_ptr(), to_bus.as_ptr(), to_loop.as_ptr());
    /// // SAFETY: the three are separate arrays of these lengths.
    /// let word = unsafe { raftershim_mailbox_create(b, 41, t, 4, l, 3, 7) };
    /// assert_eq!((word, block[23]), (0, 7));
    /// ```
    pub fn raftershim_mailbox_create(
        block: *mut u8,
        block_len: u64,
        to_bus: *const u16,
        to_bus_len: u64,
        to_loop: *const u16,
        to_loop_len: u64,
        address: u32,
    ) -> u64;

    /// Gives the block what create gives for the same sizes and address. Answers done, or refusal 2.
    ///
    /// # Safety
    ///
    /// The three buffers are as the page of the module says.
    ///
    /// ```
    /// use raftershim::raw::*;
    ///
    /// let (mut block, to_bus, to_loop) = ([0; 41], [0; 4], [0; 3]);
    /// let (b, t, l) = (block.as_mut_ptr(), to_bus.as_ptr(), to_loop.as_ptr());
    /// // SAFETY: the three are separate arrays of these lengths.
    /// let word = unsafe {
    ///     raftershim_mailbox_create(b, 41, t, 4, l, 3, 7);
    ///     raftershim_mailbox_bus_command(b, 41, t, 4, l, 3, 39);
    ///     raftershim_mailbox_reset(b, 41, t, 4, l, 3)
    /// };
    /// assert_eq!((word, block[26]), (0, 0));
    /// ```
    pub fn raftershim_mailbox_reset(
        block: *mut u8,
        block_len: u64,
        to_bus: *const u16,
        to_bus_len: u64,
        to_loop: *const u16,
        to_loop_len: u64,
    ) -> u64;

    /// Takes a frame from the loop. Answers the one frame that goes on, or refusal 2, 3 or 4.
    ///
    /// # Safety
    ///
    /// The three buffers are as the page of the module says.
    ///
    /// ```
    /// use raftershim::raw::*;
    ///
    /// let (mut block, mut to_bus, to_loop) = ([0; 41], [0; 4], [0; 3]);
    /// let (b, t, l) = (block.as_mut_ptr(), to_bus.as_mut_ptr(), to_loop.as_ptr());
    /// // SAFETY: the three are separate arrays of these lengths.
    /// let word = unsafe {
    ///     raftershim_mailbox_create(b, 41, t, 4, l, 3, 7);
    ///     raftershim_mailbox_loop_frame(b, 41, t, 4, l, 3, 0x581)
    /// };
    /// assert_eq!(word, 0x3_0582);
    /// ```
    pub fn raftershim_mailbox_loop_frame(
        block: *mut u8,
        block_len: u64,
        to_bus: *mut u16,
        to_bus_len: u64,
        to_loop: *const u16,
        to_loop_len: u64,
        frame: u32,
    ) -> u64;

    /// Takes a command of the bus. Answers done, or refusal 2 or 13.
    ///
    /// # Safety
    ///
    /// The three buffers are as the page of the module says.
    ///
    /// ```
    /// use raftershim::raw::*;
    ///
    /// let (mut block, to_bus, to_loop) = ([0; 41], [0; 4], [0; 3]);
    /// let (b, t, l) = (block.as_mut_ptr(), to_bus.as_ptr(), to_loop.as_ptr());
    /// // SAFETY: the three are separate arrays of these lengths.
    /// let word = unsafe {
    ///     raftershim_mailbox_create(b, 41, t, 4, l, 3, 7);
    ///     raftershim_mailbox_bus_command(b, 41, t, 4, l, 3, 39)
    /// };
    /// assert_eq!((word, block[26]), (0, 1));
    /// ```
    pub fn raftershim_mailbox_bus_command(
        block: *mut u8,
        block_len: u64,
        to_bus: *const u16,
        to_bus_len: u64,
        to_loop: *const u16,
        to_loop_len: u64,
        command: u32,
    ) -> u64;

    /// Takes a data byte of the bus, without its end mark if `end` is 0, else with it. Answers done,
    /// or refusal 2 or 4. Done is also the answer if the mailbox is not listener on the bus: then
    /// nobody keeps the byte.
    ///
    /// # Safety
    ///
    /// The three buffers are as the page of the module says.
    ///
    /// ```
    /// use raftershim::raw::*;
    ///
    /// let (mut block, to_bus, mut to_loop) = ([0; 41], [0; 4], [0; 3]);
    /// let (b, t, l) = (block.as_mut_ptr(), to_bus.as_ptr(), to_loop.as_mut_ptr());
    /// // SAFETY: the three are separate arrays of these lengths.
    /// let word = unsafe {
    ///     raftershim_mailbox_create(b, 41, t, 4, l, 3, 7);
    ///     raftershim_mailbox_bus_command(b, 41, t, 4, l, 3, 39);
    ///     raftershim_mailbox_bus_byte(b, 41, t, 4, l, 3, 53, 1)
    /// };
    /// assert_eq!((word, to_loop[0]), (0, 256 + 53));
    /// ```
    pub fn raftershim_mailbox_bus_byte(
        block: *mut u8,
        block_len: u64,
        to_bus: *const u16,
        to_bus_len: u64,
        to_loop: *mut u16,
        to_loop_len: u64,
        byte: u8,
        end: u32,
    ) -> u64;

    /// Gives the bus its next byte. Answers that byte, none, or refusal 2.
    ///
    /// # Safety
    ///
    /// The three buffers are as the page of the module says.
    ///
    /// ```
    /// use raftershim::raw::*;
    ///
    /// let (mut block, to_bus, to_loop) = ([0; 41], [0; 4], [0; 3]);
    /// let (b, t, l) = (block.as_mut_ptr(), to_bus.as_ptr(), to_loop.as_ptr());
    /// // SAFETY: the three are separate arrays of these lengths.
    /// let word = unsafe {
    ///     raftershim_mailbox_create(b, 41, t, 4, l, 3, 7);
    ///     raftershim_mailbox_bus_fetch(b, 41, t, 4, l, 3)
    /// };
    /// assert_eq!(word, 0x1_0000);
    /// ```
    pub fn raftershim_mailbox_bus_fetch(
        block: *mut u8,
        block_len: u64,
        to_bus: *const u16,
        to_bus_len: u64,
        to_loop: *const u16,
        to_loop_len: u64,
    ) -> u64;

    /// Takes an interface clear of the bus. Answers done, or refusal 2.
    ///
    /// # Safety
    ///
    /// The three buffers are as the page of the module says.
    ///
    /// ```
    /// use raftershim::raw::*;
    ///
    /// let (mut block, to_bus, to_loop) = ([0; 41], [0; 4], [0; 3]);
    /// let (b, t, l) = (block.as_mut_ptr(), to_bus.as_ptr(), to_loop.as_ptr());
    /// // SAFETY: the three are separate arrays of these lengths.
    /// let word = unsafe {
    ///     raftershim_mailbox_create(b, 41, t, 4, l, 3, 7);
    ///     raftershim_mailbox_bus_command(b, 41, t, 4, l, 3, 39);
    ///     raftershim_mailbox_bus_clear(b, 41, t, 4, l, 3)
    /// };
    /// assert_eq!((word, block[26]), (0, 0));
    /// ```
    pub fn raftershim_mailbox_bus_clear(
        block: *mut u8,
        block_len: u64,
        to_bus: *const u16,
        to_bus_len: u64,
        to_loop: *const u16,
        to_loop_len: u64,
    ) -> u64;

    /// Shows the bus lines. Answers these, or refusal 2. It writes nothing.
    ///
    /// # Safety
    ///
    /// The three buffers are as the page of the module says.
    ///
    /// ```
    /// use raftershim::raw::*;
    ///
    /// let (mut block, to_bus, to_loop) = ([0; 41], [0; 4], [0; 3]);
    /// let (b, t, l) = (block.as_mut_ptr(), to_bus.as_ptr(), to_loop.as_ptr());
    /// // SAFETY: the three are separate arrays of these lengths.
    /// let word = unsafe {
    ///     raftershim_mailbox_create(b, 41, t, 4, l, 3, 7);
    ///     raftershim_mailbox_bus_lines(b, 41, t, 4, l, 3)
    /// };
    /// assert_eq!(word, 0x5_0000);
    /// ```
    pub fn raftershim_mailbox_bus_lines(
        block: *const u8,
        block_len: u64,
        to_bus: *const u16,
        to_bus_len: u64,
        to_loop: *const u16,
        to_loop_len: u64,
    ) -> u64;

    /// Shows what waits: side 0 is the way to the bus, side 1 the way to the loop. Answers where the
    /// longest unbroken run of cells from the oldest one is: in bits 32 to 63 the place where it
    /// starts, in bits 0 to 31 its length. The answer is 0 if nothing waits, the block is not a state
    /// that fits the stores, or the side is neither. It writes nothing and is never refused.
    ///
    /// # Safety
    ///
    /// The three buffers are as the page of the module says.
    ///
    /// ```
    /// use raftershim::raw::*;
    ///
    /// let (mut block, to_bus, mut to_loop) = ([0; 41], [0; 4], [0; 3]);
    /// let (b, t, l) = (block.as_mut_ptr(), to_bus.as_ptr(), to_loop.as_mut_ptr());
    /// // SAFETY: the three are separate arrays of these lengths.
    /// let word = unsafe {
    ///     raftershim_mailbox_create(b, 41, t, 4, l, 3, 7);
    ///     raftershim_mailbox_bus_command(b, 41, t, 4, l, 3, 39);
    ///     raftershim_mailbox_bus_byte(b, 41, t, 4, l, 3, 53, 1);
    ///     raftershim_mailbox_show(b, 41, t, 4, l, 3, 1)
    /// };
    /// assert_eq!(word, 1);
    /// ```
    pub fn raftershim_mailbox_show(
        block: *const u8,
        block_len: u64,
        to_bus: *const u16,
        to_bus_len: u64,
        to_loop: *const u16,
        to_loop_len: u64,
        side: u32,
    ) -> u64;
}
