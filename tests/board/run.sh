#!/bin/sh
# Runs the C tests of the bridge and of the mailbox on emulated boards with chips: sh tests/board/run.sh [TRIPLE...]   (without a word: on all
# three). The Cortex-M0 and the Cortex-M4 run their small form, with stores of 64. The RISC-V chip has memory for the whole.
set -eu
cd "$(dirname "$0")/../.."
. tests/board/build.sh
need 'gcc-riscv64-unknown-elf picolibc-riscv64-unknown-elf' riscv64-unknown-elf-gcc
need qemu-system-misc qemu-system-riscv32

arm() { # SOURCE CHIP BOARD
    export CHIP="$2" BOARD="$3"
    sh tests/board/link.sh -DMOST=64 -Iinclude "$1" "$(archive_of "$triple")" -o "$out/test"
    emulated test
}

# The memory of the emulated board starts at 0x80000000: two megabytes for the program, four for its data.
riscv() { # SOURCE
    riscv64-unknown-elf-gcc -march=rv32imc -mabi=ilp32 --specs=picolibc.specs --oslib=semihost --crt0=hosted -O2 -std=c11 -Wall -Wextra \
        -Werror -Wl,--defsym=__flash=0x80000000,--defsym=__flash_size=0x200000,--defsym=__ram=0x80200000,--defsym=__ram_size=0x400000 \
        -Iinclude "$1" "$(archive_of "$triple")" -o "$out/test"
    timeout 60 qemu-system-riscv32 -M virt -bios none -display none -monitor none -serial none \
        -semihosting-config enable=on,target=native -kernel "$out/test" 2>&1
}

runs() { # SOURCE
    printf '%s, %s: ' "$triple" "$(basename "$1")"
    case $triple in
        thumbv6m-none-eabi) arm "$1" cortex-m0 microbit ;;
        thumbv7em-none-eabi) arm "$1" cortex-m4 mps2-an386 ;;
        riscv32imc-unknown-none-elf) riscv "$1" ;;
        *) echo "run.sh: there is no board for $triple" >&2; exit 2 ;;
    esac
}

[ $# -gt 0 ] || set -- thumbv6m-none-eabi thumbv7em-none-eabi riscv32imc-unknown-none-elf
for triple in "$@"; do
    for source in tests/c/calls.c tests/c/breaks.c tests/c/line_out.c tests/c/mailbox*.c; do runs "$source"; done
done
