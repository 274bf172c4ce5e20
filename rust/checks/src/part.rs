//! What showing a store has to answer.

/// Holds a shown part, start above length, to what is held: the longest unbroken run of it in a
/// store of this length. `same` says whether a place has the held cell of an index.
pub fn due(
    part: u64,
    store_len: usize,
    held: usize,
    same: impl Fn(usize, usize) -> bool,
) -> Result<(), String> {
    let (start, len) = ((part >> 32) as usize, (part & 0xffff_ffff) as usize);
    let within = len <= held && start + len <= store_len && (len > 0 || part == 0);
    let longest = len == held || len > 0 && start + len == store_len;
    if within && longest && (0..len).all(|index| same(start + index, index)) {
        Ok(())
    } else {
        Err("another part is due".into())
    }
}
