//! Whether the script is typed by hand.

/// What is said to a person who has named no script, and would else wait in silence.
pub const READS_FROM_IT: &str = "\
replay reads a script from the keyboard, a call a line; control and D end it. For the calls: replay --help";

/// Whether standard input is a terminal. Any other device that gives characters is taken for one,
/// but the null device is not.
#[cfg(unix)]
pub fn is_input() -> bool {
    use std::fs::metadata;
    use std::os::unix::fs::{FileTypeExt, MetadataExt};

    // Rust has a question for terminals from 1.70 on, and this crate is for 1.63 too.
    match (metadata("/dev/stdin"), metadata("/dev/null")) {
        (Ok(input), Ok(null)) => input.file_type().is_char_device() && input.rdev() != null.rdev(),
        _ => false,
    }
}

/// Elsewhere it is not known.
#[cfg(not(unix))]
pub fn is_input() -> bool {
    false
}
