#!/bin/sh
# Runs a program and prints how many instructions it executed, then the line that it printed itself:
# sh rust/bench/count.sh [qemu-NAME-static] PROGRAM WORDS...
# Callgrind counts. For a program of another processor the emulator named does: it writes a line for each instruction, and these are counted.
set -eu
said=$(mktemp)
heard=$(mktemp)
trap 'rm -f "$said" "$heard"' EXIT

case $1 in
    qemu-*)
        # Newer emulators have another word for one instruction at a time.
        single=-singlestep
        if "$1" -help | grep -q one-insn-per-tb; then single=-one-insn-per-tb; fi
        emulator=$1
        shift
        count=$("$emulator" "$single" -d nochain,exec -D /dev/stderr "$@" 2>&1 > "$said" | grep -c '^Trace')
        ;;
    *)
        valgrind --tool=callgrind --callgrind-out-file=/dev/null "$@" > "$said" 2> "$heard"
        count=$(awk '$2 == "Collected" { print $4 }' "$heard")
        ;;
esac
[ -s "$said" ] || { echo "count.sh: $* printed nothing" >&2; exit 1; }
echo "$count $(cat "$said")"
