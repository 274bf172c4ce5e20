#!/bin/sh
# Builds and runs the examples and holds what they print to the stored texts: sh examples/run.sh [NAME...]   (without a
# name: all of them, which are meter, mailbox, ports, dongle and no-std)
# The meter and the mailbox run on this machine, and so does the dongle's main loop, on ports that lose a byte. The dongle, in C, and the
# meter without the standard library, in Rust, run on the emulated board.
set -eu
cd "$(dirname "$0")/.."
. tests/board/build.sh

# Compares with the stored text.
same() { # NAME STORED
    diff "$2" "$out/$1.said" || { echo "examples/run.sh: $1 prints something else" >&2; exit 1; }
    echo "$1: $(grep -c ': whole$' "$2") readings whole, $(grep -c 'missing$' "$2") with a byte missing, as stored"
}

# Compiles for this machine, runs and compares.
here() { # NAME STORED WORDS-AND-SOURCES...
    name=$1 stored=$2
    shift 2
    for_target "$own"
    gcc -std=c11 -Wall -Wextra -Werror -O2 -Iinclude -Iexamples/c "$@" "$(archive_of "$own")" -o "$out/$name"
    "$out/$name" > "$out/$name.said"
    same "$name" "$stored"
}

meter() { here meter examples/c/meter.said examples/c/meter.c; }

mailbox() { here mailbox examples/c/mailbox.said examples/c/mailbox.c; }

ports() { here ports tests/c/ports.said -DRECEIVE_LEN=64u -Iexamples/dongle examples/dongle/main.c tests/c/ports.c; }

# The line and the console of the board are one output here; of the line it has our stop and go, which are spelled out.
dongle() {
    board dongle -DRECEIVE_LEN=64u -Iexamples/c examples/dongle/*.c
    emulated dongle -chardev stdio,id=line,signal=off -serial chardev:line < examples/dongle/line.txt > "$out/dongle.raw"
    sed 's/\x13/stop\n/g; s/\x11/go\n/g' "$out/dongle.raw" > "$out/dongle.said"
    same dongle examples/dongle/dongle.said
}

no_std() {
    (cd examples/no-std && sh ../../rust/cargo.sh thumbv6m-none-eabi run --quiet) > "$out/no-std.said"
    same no-std examples/c/meter.said
}

[ $# -gt 0 ] || set -- meter mailbox ports dongle no-std
for name in "$@"; do
    case $name in
        meter | mailbox | ports | dongle) "$name" ;;
        no-std) no_std ;;
        *) echo "examples/run.sh: there is no example $name" >&2; exit 2 ;;
    esac
done
