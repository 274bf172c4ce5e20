#!/bin/sh
# Compiles the C tests against the archive and runs them: calls.c, breaks.c and line_out.c of the bridge, mailbox*.c of the mailbox, and
# gaps.c of the examples' notes of gaps: sh tests/c/run.sh [TRIPLE...]
# Without a word it is for this machine; for another target a cross compiler and an emulator stand in.
# Says how many answers were compared; fails on a difference.
set -eu
cd "$(dirname "$0")/../.."
. archives/tools.sh

runs() { # SOURCE WORDS...
    source=$1
    shift
    "${prefix}gcc" -std=c11 -Wall -Wextra -Werror -O2 -static -Iinclude -Iexamples/c "$@" "$source" "$archive" -o "$out/program"
    printf '%s, %s: ' "$triple" "$(basename "$source")"
    $emulator "$out/program"
}

for triple in "${@:-$own}"; do
    for_target "$triple"
    out=target/c/$triple
    mkdir -p "$out"
    archive=$(archive_of "$triple")
    for source in tests/c/calls.c tests/c/breaks.c tests/c/line_out.c tests/c/mailbox*.c; do runs "$source"; done
    runs tests/c/gaps.c -DRECEIVE_LEN=4u
    runs tests/c/gaps.c -DRECEIVE_LEN=8u
done
