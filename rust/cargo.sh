#!/bin/sh
# Runs cargo for another target than this machine's: sh rust/cargo.sh TRIPLE WORDS..., as in sh rust/cargo.sh x86_64-unknown-linux-gnu test
# The targets are x86_64-unknown-linux-gnu, aarch64-unknown-linux-gnu and thumbv6m-none-eabi. Debian's cargo is 1.65: an app's Cargo.lock
# that a newer cargo wrote must be removed first.
# Programs of this machine's own target need none of this: plain cargo does. For another, Debian's compiler and its standard library for
# that target, a cross linker and an emulator stand in; what is missing is installed, after a line that says so.
set -eu
here=$(pwd)
cd "$(dirname "$0")/.."
. archives/tools.sh
triple=${1?'the first word is the target'}
shift
if [ "$triple" = "$own" ]; then cd "$here" && exec cargo "$@"; fi

# A chip has no system: its programs are linked with a C library and run on the emulated board.
if [ "$triple" = thumbv6m-none-eabi ]; then
    . tests/board/build.sh
    RUSTFLAGS="--sysroot $(sh rust/core.sh "$triple") -C linker=$(pwd)/tests/board/link.sh -C linker-flavor=gcc -C default-linker-libraries=yes"
    export RUSTFLAGS RUSTC=/usr/bin/rustc CARGO_BUILD_TARGET="$triple" CARGO_NET_OFFLINE=true
    export CARGO_TARGET_THUMBV6M_NONE_EABI_RUNNER="sh $(pwd)/tests/board/emulate.sh"
    cd "$here" && exec /usr/bin/cargo "$@"
fi

case $triple in
    x86_64-unknown-linux-gnu) debian=amd64 ;;
    aarch64-unknown-linux-gnu) debian=arm64 ;;
    *) echo "cargo.sh: there is no Rust here for $triple" >&2; exit 2 ;;
esac
for_target "$triple"
[ -x /usr/bin/cargo ] && [ -d "/usr/lib/rustlib/$triple/lib" ] || install rustc cargo "libstd-rust-dev:$debian"
name=$(echo "$triple" | tr 'a-z-' 'A-Z_')
export "CARGO_TARGET_${name}_LINKER=${prefix}gcc" "CARGO_TARGET_${name}_RUNNER=$emulator"
# RUSTC_BOOTSTRAP lets this cargo run the examples of the documentation for another processor than its own
export RUSTC=/usr/bin/rustc RUSTDOC=/usr/bin/rustdoc RUSTC_BOOTSTRAP=1 CARGO_BUILD_TARGET="$triple" CARGO_NET_OFFLINE=true
cd "$here"
exec /usr/bin/cargo -Z doctest-xcompile "$@"
