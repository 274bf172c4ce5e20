#!/bin/sh
# Builds Rust's core library for a chip from Debian's source of it, and prints the folder to name with --sysroot: sh rust/core.sh TRIPLE
# Debian has the compiler for chips and no libraries. The crate compiler_builtins, which would bring the copying of memory and the like,
# is empty here: a C library for the chip brings these.
set -eu
cd "$(dirname "$0")/.."
. archives/tools.sh
folder=$(pwd)/target/rust/core/$1
libraries=$folder/lib/rustlib/$1/lib
source_of_core() { echo /usr/src/rustc-*/library/core/src/lib.rs; }
[ -x /usr/bin/cargo ] && [ -f "$(source_of_core)" ] || install rustc cargo rust-src

library() { # NAME SOURCE WORDS...
    name=$1
    shift
    RUSTC_BOOTSTRAP=1 /usr/bin/rustc --crate-name "$name" --edition 2021 --crate-type rlib --target "$triple" --cap-lints allow \
        -C opt-level=s -C panic=abort -C embed-bitcode=no --out-dir "$libraries" "$@"
}

triple=$1
if [ ! -f "$libraries/libcompiler_builtins.rlib" ]; then
    mkdir -p "$libraries"
    library core "$(source_of_core)"
    echo '#![feature(compiler_builtins)] #![compiler_builtins] #![no_builtins] #![no_std]' > "$folder/empty.rs"
    library compiler_builtins "$folder/empty.rs" --extern "core=$libraries/libcore.rlib"
fi
echo "$folder"
