"""Faults that archives/make.sh and the crate's build script must find, with a kit that only writes down what its clang was told."""
import os

from planting import Missed, Room

BIN = "kit/toolchain/bin"
M0 = "thumbv6m-none-eabi"
MAKE = ["sh", "archives/make.sh", M0]
SOURCE = "crates/one/src/lib.rt"
OTHER = "crates/two/src/lib.rt"
BELOW = "crates/below/specs/Lib.antt"
IGNORED = "'x86-64-v2' is not a recognized processor for this target (ignoring processor)"

CLANG = """#!/bin/sh
words=$*
while [ "$1" != -o ]; do shift; done
echo "$words" > "$2"
[ -z "${CLANG_SAYS-}" ] || echo "$CLANG_SAYS" >&2
"""
RT = """#!/bin/sh
case $1 in
    doc) echo "${0%/bin/rt}/kit/START-HERE.md" ;;
    version) echo kit ;;
    lib) ;;
esac
"""
RATTLE = """#!/bin/sh
[ -z "${UNPROVED-}" ] || { echo 'a crate is not proved'; exit 1; }
room=${0%/kit/bin/rattle}
while [ $# -gt 0 ]; do
    case $1 in
        --toolchain) toolchain=$2 ;;
        --crate-name) crate=$2 ;;
    esac
    shift
done
echo "$crate" >> "$room/proofs"
rm -rf "$room/lowered"
mkdir "$room/lowered"
cd "$room/lowered"
[ "$crate" = "${WITHOUT-}" ] || echo module > module.bc
"$toolchain/bin/clang" --target=x86 --sysroot="$toolchain" -march=x86-64 -mllvm -careful -Werror -c -x ir module.bc -o module.o -fPIC -O3
"""


def program(room, path, text):
    """Writes a program into the room."""
    room.write(path, text)
    os.chmod(room.at(path), 0o755)


def furnished(room):
    """Puts the kit, its command and three crates into the room, of which two make the archive; the paths with and without the command."""
    program(room, f"{BIN}/clang", CLANG)
    os.symlink("/usr/bin/llvm-ar", room.at(f"{BIN}/llvm-ar"))
    room.write("kit/toolchain/lib/libc.a", "")
    program(room, "kit/bin/rattle", RATTLE)
    program(room, "bin/rt", RT)
    for path in (SOURCE, OTHER, BELOW):
        room.write(path, "one")
    room.write("crates.txt", "below:\none staticlib: below\ntwo staticlib:\n")
    room.write("archives/crates", "# crates\none include/one.h\ntwo include/two.h\n")
    return f"{room.at('bin')}:/usr/bin:/bin", "/usr/bin:/bin"


def making(room, path):
    """The script: one proof of a crate serves every target, until a source of it or below it changes; what clang says is an error."""
    room.passes(MAKE, f"target/staticlib/{M0}/libraftershim.a", PATH=path)
    for crate in ("one", "two"):
        told = f"llvm-ar p target/staticlib/{M0}/libraftershim.a {crate}.o | grep -e '^--target={M0} .* -O3 -mllvm -careful -Werror .* -c -x ir .*/{crate}.bc'"
        room.passes(["sh", "-c", told])
    counted = ["sh", "-c", "sh archives/make.sh all > said && echo $(wc -l < said) archives, proofs of $(paste -sd ' ' proofs)"]
    room.passes(counted, "7 archives, proofs of one two\n", PATH=path)
    for source in (SOURCE, BELOW):
        room.write(source, "two")
        room.passes(counted, "one two one" + " one" * (source == BELOW) + "\n", PATH=path)
    room.passes(MAKE, PATH=path, CLANG_SAYS=IGNORED)
    room.finds(MAKE, "a warning", PATH=path, CLANG_SAYS="a warning")
    room.finds(MAKE, "a crate is not proved", (SOURCE, "three"), PATH=path, UNPROVED="1")
    room.finds(MAKE, "no module.bc to keep", (SOURCE, "four"), (OTHER, "four"), PATH=path, WITHOUT="two")


def building(room, path, without):
    """The build script of the crate: the archive of the target, made where it is missing, or the folder that the user names."""
    status, printed = room.run(["rustc", "--edition", "2021", "rust/raftershim/build.rs", "-o", "build"])
    if status:
        raise Missed(f"the build script could not be compiled:\n{printed}")
    words = {"CARGO_MANIFEST_DIR": room.at("rust/raftershim"), "TARGET": "riscv32imc-unknown-none-elf"}
    room.passes(["./build"], "staticlib/riscv32imc-unknown-none-elf", PATH=without, **words)
    room.run(["rm", "-r", "target/staticlib/riscv32imc-unknown-none-elf"])
    room.finds(["./build"], "the command rt is missing", PATH=without, **words)
    room.passes(["./build"], "staticlib/riscv32imc-unknown-none-elf", PATH=path, **words)
    room.finds(["./build"], "there is no target mips-unknown-linux-gnu", PATH=path, **{**words, "TARGET": "mips-unknown-linux-gnu"})
    room.finds(["./build"], "is missing: RAFTERSHIM_ARCHIVE_DIR", PATH=path, RAFTERSHIM_ARCHIVE_DIR=room.at("bin"), **words)
    room.write("own/libraftershim.a", "own")
    room.passes(["./build"], "native=" + room.at("own"), PATH=without, RAFTERSHIM_ARCHIVE_DIR=room.at("own"), **words)


def run():
    """Plants every fault; how many."""
    with Room("archives", "tools", "rust/raftershim/build.rs") as room:
        path, without = furnished(room)
        making(room, path)
        building(room, path, without)
        return room.count
