"""Faults of an archive that tests/c/archive.sh and tests/c/run.sh must find. The objects are made from a few lines of C."""
import os
import platform
import re

from planting import Missed, Room

CONTENTS = ["sh", "tests/c/archive.sh"]
CALLS = ["sh", "tests/c/run.sh"]
KEPT = "__attribute__((used)) static"
OWN = f"{platform.machine()}-unknown-linux-gnu"
X86 = "x86_64-unknown-linux-gnu"
MORE = "more"

# What clang is told for each target; none needs a header or a library.
TARGETS = {
    X86: "--target=x86_64-linux-gnu",
    "aarch64-unknown-linux-gnu": "--target=aarch64-linux-gnu",
    "armv7-unknown-linux-gnueabihf": "--target=armv7-linux-gnueabihf -mcpu=cortex-a7",
    "thumbv6m-none-eabi": "--target=thumbv6m-none-eabi",
    "thumbv7em-none-eabi": "--target=thumbv7em-none-eabi -mcpu=cortex-m4",
    "riscv32imc-unknown-none-elf": "--target=riscv32-none-elf -march=rv32imc",
}
DIVIDES = "has a divide instruction"
ASKS = "asks for these symbols"
DIFFERS = "the header and the object differ"

# Code that an object shall not have on any target, and what is said of it.
EVERYWHERE = (
    (f"extern int late(void);\n{KEPT} int x(void) {{ return late(); }}\n", ASKS),
    (f"extern int late(void) __attribute__((weak));\n{KEPT} int x(void) {{ return late(); }}\n", ASKS),
    (f"extern int raftershim_reset(void);\n{KEPT} int x(void) {{ return raftershim_reset(); }}\n", ASKS),
    ("int late(void) { return 0; }\n", DIFFERS),
    ("int late = 7;\n", DIFFERS),
    ("__attribute__((weak)) int late(void) { return 0; }\n", DIFFERS),
)
INTEGERS = tuple(f"{KEPT} {kind} x({kind} a, {kind} b) {{ return a {sign} b; }}\n" for kind in ("int", "unsigned") for sign in "/%")
FLOAT = f"{KEPT} float x(float a, float b) {{ return a / b; }}\n"
DOUBLE = f"{KEPT} double x(double a, double b) {{ return a / b; }}\n"
LONG_DOUBLE = f"{KEPT} long double x(long double a, long double b) {{ return a / b; }}\n"
# On Arm an instruction may be done only where a comparison came out so.
WHERE_NOT_ZERO = f'{KEPT} int x(int a, int b) {{{{ __asm__("cmp %1, #0\\n it ne\\n {{}}" : "+r"(a) : "r"(b) : "cc"); return a; }}}}\n'
CONDITIONAL = tuple(WHERE_NOT_ZERO.format(f"{sign}divne %0, %0, %1") for sign in "us")
CONDITIONS = {
    "armv7-unknown-linux-gnueabihf": (*CONDITIONAL, WHERE_NOT_ZERO.format("vdivne.f32 s0, s0, s1")),
    "thumbv7em-none-eabi": CONDITIONAL,
}
FLOATS = {X86: (FLOAT, DOUBLE, LONG_DOUBLE), "aarch64-unknown-linux-gnu": (FLOAT, DOUBLE), "armv7-unknown-linux-gnueabihf": (FLOAT, DOUBLE)}


def furnished(room):
    """Puts a crate more before the others in the list of the room, with a header of one function; most faults are planted in its object."""
    room.write("archives/crates", f"{MORE} include/{MORE}.h\n" + room.text("archives/crates"))
    room.write(f"include/{MORE}.h", f"uint64_t raftershim_{MORE}(void);\n")
    room.run(["sh", "-c", ". archives/tools.sh; need clang clang; need llvm llvm-ar"])


def made(room, target, more="", left_out="", objects="*.o"):
    """Makes an archive with an object of each crate, of functions of the header's names that answer 0, but for one left out, and of more code."""
    folder, commands = f"target/staticlib/{target}", []
    for crate, header in re.findall(r"^(\w+) (.*)$", room.text("archives/crates"), re.M):
        names = sorted(set(re.findall(r"^uint64_t (raftershim_\w+)\(", room.text(header), re.M)) - {left_out})
        code = "".join(f"long {name}(void) {{ return 0; }}\n" for name in names) + (more if crate == MORE else "")
        if room.text(f"{folder}/{crate}.c") != code:
            room.write(f"{folder}/{crate}.c", code)
            commands.append(f"clang {TARGETS[target]} -ffreestanding -O1 -c {crate}.c")
        commands.append(f"rm -f ../lib{crate}.a; llvm-ar rcs ../lib{crate}.a {crate}.o")
    status, printed = room.run(["sh", "-c", "\n".join([f"set -e; cd {folder}; rm -f *.a", *commands, f"llvm-ar rcs libraftershim.a {objects}"])])
    if status:
        raise Missed(f"no archive could be made:\n{printed}")


def faults(target):
    """The code to plant for a target. A Cortex-M0 has no divide instruction: there a division asks for its helper."""
    lacks = target == "thumbv6m-none-eabi"
    divisions = [(more, ASKS if lacks else DIVIDES) for more in INTEGERS]
    others = FLOATS.get(target, ()) + CONDITIONS.get(target, ())
    return [*EVERYWHERE, *divisions, *((more, DIVIDES) for more in others)]


def planted(room, target):
    """Plants every fault of an object for a target."""
    check = [*CONTENTS, target]
    made(room, target)
    room.passes(check, f"{target}, {MORE}.o: 1 functions")
    for more, said in faults(target):
        made(room, target, more)
        room.finds(check, said)
    for left_out in ("raftershim_reset", f"raftershim_{MORE}"):
        made(room, target, left_out=left_out)
        room.finds(check, DIFFERS)


def together(room, target):
    """Plants faults of the archive as a whole, and code that is in order."""
    check = [*CONTENTS, target]
    made(room, target, f"extern void *memcpy(void *, const void *, unsigned long);\n{KEPT} void *x(void *a, void *b, long n) {{ return memcpy(a, b, n); }}\n")
    room.passes(check, "asks for memcpy")
    made(room, target, KEPT + ' void x(void) { __asm__(".inst 0xffffffff"); }\n')
    room.finds(check, "has code that cannot be read")
    for objects in (f"{MORE}.o", f"*.o {MORE}.c"):
        made(room, target, objects=objects)
        room.finds(check, "has not one object for each crate")
    made(room, target)
    room.finds(check, "the headers are not one for each crate", ("include/late.h", "uint64_t raftershim_late(void);\n"))


def called(room):
    """Sees each C test find functions that answer 0, the other tests being empty."""
    tests = [f"tests/c/{name}" for name in sorted(os.listdir(room.at("tests/c"))) if re.fullmatch(r"calls\.c|mailbox.*\.c", name)]
    for test in tests:
        room.finds(CALLS, "differ", *((other, "int main(void) { return 0; }\n") for other in tests if other != test))


def run():
    """Plants every fault; how many."""
    with Room("tests/c", "include", "archives") as room:
        furnished(room)
        for target in TARGETS:
            planted(room, target)
        together(room, "aarch64-unknown-linux-gnu")
        made(room, X86)
        room.write(f"target/staticlib/lib{MORE}.a", "another")
        room.finds([*CONTENTS, X86], "it is not the kit's")
        made(room, OWN)
        called(room)
        return room.count
