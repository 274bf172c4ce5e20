#!/bin/sh
# Counts the instructions that calls of the bridge and of the mailbox take on the Cortex-M0: sh tests/board/count.sh
# The emulator writes a line for each instruction. Those from the entry of a call to the next instruction of the caller are counted, the
# copying of memory too.
set -eu
cd "$(dirname "$0")/../.."
. tests/board/build.sh

counts() { # PROGRAM FUNCTIONS
    board "$1" "tests/board/$1.c"
    emulated "$1" -singlestep -d exec,nochain -D /dev/stdout > "$out/$1.trace"
    arm-none-eabi-nm -S "$out/$1" > "$out/$1.names"
    awk -v counted="$2" -f tests/board/count.awk "$out/$1.names" "$out/$1.trace"
}

counts count 'line_byte loop_frame'
counts count_mailbox 'mailbox_bus_byte mailbox_bus_fetch mailbox_bus_command mailbox_loop_frame'
