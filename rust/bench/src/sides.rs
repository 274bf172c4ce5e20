//! The C functions of a machine by pointer, from a table that says each once: every side is called
//! by the same code.

/// The calls of a machine, and its sides. First comes what its two stores are of. A row of the table
/// has the call, the function's field, its name in the archive and in the crates in plain Rust, what
/// it may write of the block and the two stores, and the numbers that it takes behind them. After the
/// table come those crates.
macro_rules! sides {
    ([$a:ty, $b:ty], $rows:tt, $($plain:ident = $boundary:path),*) => {
        calls! { [$a, $b], $rows }
        archive! { $rows }
        idle! { [$a, $b], $rows }
        $(plain! { $plain, $boundary, [$a, $b], $rows })*
    };
}

/// The call with what it takes beside the block and the stores, and the functions by pointer.
macro_rules! calls {
    ([$a:ty, $b:ty], {$($call:ident $name:ident $raw:ident $in_crate:ident $block:tt $one:tt $other:tt
        ($($number:ident: $kind:ty),*);)*}) => {
        /// A call of the machine, with what it takes beside the block and the stores.
        #[derive(Clone, Copy, Debug)]
        pub enum Call {
            $($call($($kind),*),)*
        }

        /// The C functions of one implementation.
        #[derive(Clone, Copy)]
        pub struct Side {
            $(pub $name: unsafe extern "C" fn(
                *$block u8, u64, *$one $a, u64, *$other $b, u64 $(, $kind)*
            ) -> u64,)*
        }

        impl Side {
            /// Makes a call.
            ///
            /// # Safety
            ///
            /// The three pointers are good for their lengths and the buffers are apart.
            #[inline(always)]
            pub unsafe fn call(&self, lent: crate::machine::Lent<$a, $b>, call: Call) -> u64 {
                let (one, other) = lent.stores;
                match call {
                    $(Call::$call($($number),*) => (self.$name)(
                        lent.block.0, lent.block.1, one.0, one.1, other.0, other.1 $(, $number)*
                    ),)*
                }
            }

            /// The address of a call's function, and the numbers it takes behind the stores.
            pub fn passed(&self, call: Call) -> (usize, Vec<u64>) {
                match call {
                    $(Call::$call($($number),*) => {
                        (self.$name as usize, vec![$($number.into()),*])
                    })*
                }
            }
        }
    };
}

/// The proved functions.
macro_rules! archive {
    ({$($call:ident $name:ident $raw:ident $in_crate:ident $block:tt $one:tt $other:tt
        $numbers:tt;)*}) => {
        /// The proved one.
        pub static ARCHIVE: Side = Side { $($name: raftershim::raw::$raw,)* };
    };
}

/// Functions that answer 0 at once and leave everything as it was: what is counted with them is the
/// work's own loop.
macro_rules! idle {
    ([$a:ty, $b:ty], {$($call:ident $name:ident $raw:ident $in_crate:ident $block:tt $one:tt $other:tt
        ($($number:ident: $kind:ty),*);)*}) => {
        mod idle {
            $(pub unsafe extern "C" fn $name(
                _: *$block u8, _: u64, _: *$one $a, _: u64, _: *$other $b, _: u64
                $(, _: $kind)*
            ) -> u64 {
                0
            })*
        }

        /// The one that does nothing.
        pub static IDLE: Side = Side { $($name: idle::$name,)* };
    };
}

/// A crate in plain Rust behind the C signatures. Each function makes slices of what was lent and
/// calls the crate's own. All are unsafe for the one reason that the C functions are: every pointer
/// must be good for its length, and the three buffers must not overlap.
macro_rules! plain {
    ($plain:ident, $boundary:path, [$a:ty, $b:ty], {$($call:ident $name:ident $raw:ident $in_crate:ident
        $block:tt $one:tt $other:tt ($($number:ident: $kind:ty),*);)*}) => {
        pub mod $plain {
            use super::Side;
            use std::slice::{from_raw_parts as lent_const, from_raw_parts_mut as lent_mut};
            use $boundary as boundary;

            $(unsafe extern "C" fn $name(
                block: *$block u8,
                block_len: u64,
                one: *$one $a,
                one_len: u64,
                other: *$other $b,
                other_len: u64,
                $($number: $kind),*
            ) -> u64 {
                boundary::$in_crate(
                    lent!($block)(block, block_len as usize),
                    lent!($one)(one, one_len as usize),
                    lent!($other)(other, other_len as usize),
                    $($number),*
                )
            })*

            pub static SIDE: Side = Side { $($name,)* };
        }
    };
}

macro_rules! lent {
    (mut) => {
        lent_mut
    };
    (const) => {
        lent_const
    };
}
