#!/bin/sh
# Links a program for the board with newlib, whose console is the emulator's: sh tests/board/link.sh WORDS-AND-FILES...
# The chip is a Cortex-M0, or the one that the variable CHIP names.
set -eu
top=$(cd "$(dirname "$0")/../.." && pwd)
chip="-mcpu=${CHIP-cortex-m0} -mthumb"
# shellcheck disable=SC2086 # several words
exec arm-none-eabi-gcc $chip -Os -std=c11 -Wall -Wextra -Werror -ffunction-sections --specs=rdimon.specs -nostartfiles \
    -Wl,--gc-sections -Wl,-z,noexecstack -T "$top/tests/board/board.ld" "$top/tests/board/start.c" "$@" \
    "$(arm-none-eabi-gcc $chip -print-file-name=rdimon-crt0.o)"
