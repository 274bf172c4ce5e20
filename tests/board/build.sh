# For scripts, which source it at the repository's root: builds a C program for the emulated board, and runs it there.
. archives/tools.sh
need 'gcc-arm-none-eabi libnewlib-arm-none-eabi' arm-none-eabi-gcc
need qemu-system-arm qemu-system-arm
out=target/board
mkdir -p "$out"

board() { # PROGRAM WORDS-AND-SOURCES...
    program=$1
    shift
    sh tests/board/link.sh -Iinclude "$@" "$(archive_of thumbv6m-none-eabi)" -o "$out/$program"
}

emulated() { # PROGRAM WORDS...
    program=$1
    shift
    sh tests/board/emulate.sh "$out/$program" "$@"
}
