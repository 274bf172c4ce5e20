#!/bin/sh
# Runs a program on the emulated board, with more words for the emulator: sh tests/board/emulate.sh PROGRAM WORDS...
# The board is the micro:bit, or the one that the variable BOARD names.
# What the program prints is printed, its exit status is ours, and a program that hangs is ended after a minute.
set -eu
program=$1
shift
exec timeout 60 qemu-system-arm -M "${BOARD-microbit}" -display none -monitor none -semihosting-config enable=on,target=native -kernel "$program" "$@"
