//! The state of a product as it is saved.

use core::fmt;

use crate::{Refusal, BLOCK_LEN, MAILBOX_BLOCK_LEN};

/// The saved state of a bridge: its block, whose first byte is the version of the layout.
///
/// Save it together with both stores. [`Bridge::restore`](crate::Bridge::restore) puts the three
/// together again. What was saved with version 2 is not taken: its receive store had bytes, and has
/// cells since.
///
/// ```
/// use raftershim::{Bridge, Refusal, Saved, Stores};
///
/// let bridge = Bridge::create(Stores { receive: [0; 64], transmit: [0; 64] }, 8)?;
/// let saved = bridge.saved();
/// let mut file: Vec<u8> = saved.as_bytes().to_vec();
/// assert_eq!(saved.version(), Saved::VERSION);
/// assert_eq!(Saved::try_from(file.as_slice()), Ok(saved));
/// assert_eq!(Saved::try_from(&file[1..]), Err(Refusal::MISFIT));
/// file[0] = 2;
/// assert_eq!(Saved::try_from(file.as_slice()), Err(Refusal::MISFIT));
/// # Ok::<(), Refusal>(())
/// ```
pub type Saved = SavedBlock<BLOCK_LEN, 3>;

/// The saved state of a mailbox: its block, whose first byte is the version of the layout.
///
/// Save it together with both stores. [`Mailbox::restore`](crate::Mailbox::restore) puts the three
/// together again. The block of a bridge has another version and is none of a mailbox.
///
/// ```
/// use raftershim::{Bridge, Mailbox, Refusal, SavedMailbox, Stores, Ways};
///
/// let saved = Mailbox::create(Ways { to_bus: [0; 8], to_loop: [0; 8] }, 7)?.saved();
/// let file: Vec<u8> = saved.as_bytes().to_vec();
/// assert_eq!(saved.version(), SavedMailbox::VERSION);
/// assert_eq!(SavedMailbox::try_from(file.as_slice()), Ok(saved));
/// let bridge = Bridge::create(Stores { receive: [0; 64], transmit: [0; 64] }, 8)?;
/// let other = SavedMailbox::try_from(&bridge.saved().as_bytes()[..41]);
/// assert_eq!(other, Err(Refusal::MISFIT));
/// # Ok::<(), Refusal>(())
/// ```
pub type SavedMailbox = SavedBlock<MAILBOX_BLOCK_LEN, 129>;

/// A saved block of so many bytes, with this version of its layout: [`Saved`] is that of a bridge,
/// [`SavedMailbox`] that of a mailbox.
#[derive(Clone, Copy, PartialEq, Eq, Hash)]
pub struct SavedBlock<const LEN: usize, const VERSION: u8>([u8; LEN]);

impl<const LEN: usize, const VERSION: u8> SavedBlock<LEN, VERSION> {
    /// The version of the layout that this crate writes and takes.
    pub const VERSION: u8 = VERSION;

    /// The version of the layout.
    ///
    /// ```
    /// use raftershim::{Bridge, Saved, Stores};
    ///
    /// let bridge = Bridge::create(Stores { receive: [0; 64], transmit: [0; 64] }, 8)?;
    /// assert_eq!(bridge.saved().version(), Saved::VERSION);
    /// # Ok::<(), raftershim::Refusal>(())
    /// ```
    pub const fn version(&self) -> u8 {
        self.0[0]
    }

    /// The bytes to be written to a file.
    ///
    /// ```
    /// use raftershim::{Bridge, Stores, BLOCK_LEN};
    ///
    /// let bridge = Bridge::create(Stores { receive: [0; 64], transmit: [0; 64] }, 8)?;
    /// assert_eq!(bridge.saved().as_bytes().len(), BLOCK_LEN);
    /// # Ok::<(), raftershim::Refusal>(())
    /// ```
    pub const fn as_bytes(&self) -> &[u8; LEN] {
        &self.0
    }

    pub(crate) const fn of(block: [u8; LEN]) -> SavedBlock<LEN, VERSION> {
        SavedBlock(block)
    }

    pub(crate) const fn block(self) -> [u8; LEN] {
        self.0
    }
}

impl<const LEN: usize, const VERSION: u8> TryFrom<&[u8]> for SavedBlock<LEN, VERSION> {
    type Error = Refusal;

    /// What was saved; refusal 2 for another length or another version. Whether it is a state that
    /// fits its stores is for [`Bridge::restore`](crate::Bridge::restore) or
    /// [`Mailbox::restore`](crate::Mailbox::restore) to say.
    fn try_from(bytes: &[u8]) -> Result<SavedBlock<LEN, VERSION>, Refusal> {
        let block = <[u8; LEN]>::try_from(bytes).map_err(|_| Refusal::MISFIT)?;
        let saved = SavedBlock(block);
        match saved.version() == VERSION {
            true => Ok(saved),
            false => Err(Refusal::MISFIT),
        }
    }
}

impl<const LEN: usize, const VERSION: u8> fmt::Debug for SavedBlock<LEN, VERSION> {
    fn fmt(&self, f: &mut fmt::Formatter<'_>) -> fmt::Result {
        f.debug_struct("Saved")
            .field("version", &self.version())
            .finish_non_exhaustive()
    }
}
