"""A fault on a chip that tests/board/run.sh must find, on each board; and a count of instructions that saw no call."""
from planting import Room

CHIPS = ("thumbv6m-none-eabi", "thumbv7em-none-eabi", "riscv32imc-unknown-none-elf")
COUNT = ["awk", "-v", "counted=line_byte loop_frame", "-f", "tests/board/count.awk", "names", "trace"]
NAMES = "00000100 00000010 t work\n00000201 00000010 T raftershim_line_byte\n00000301 00000010 T raftershim_loop_frame\n"


def trace(*places):
    """What the emulator writes of instructions at these places."""
    return "".join(f"Trace 0: 0xffff [00800400/{place:08x}/00000510/ff000201] name\n" for place in places)


def run():
    """Plants every fault; how many."""
    with Room("tests/board", "tests/c", "archives", "include") as room:
        room.lend_archives()
        for chip in CHIPS:
            check = ["sh", "tests/board/run.sh", chip]
            room.passes(check, "all as the manual says")
            room.finds(["sh", "tests/c/run.sh", chip], f"sh tests/board/run.sh {chip} runs the C test")
            for wrong in ("OUT(64, 5, 131)", "OUT(63, 5, 130)"):
                room.finds(check, "1 of", ("tests/c/calls.c", "IS(frame(5, 129), OUT(64, 5, 130))", f"IS(frame(5, 129), {wrong})"))
            room.finds(check, "1 of", ("tests/c/mailbox_talk.c", "DOES(frame(2, '5'), FRAME(1, '7'))", "DOES(frame(2, '5'), FRAME(0, '7'))"))
        room.write("names", NAMES)
        room.write("trace", trace(0x200, 0x100, 0x200, 0x202, 0x400, 0x102, 0x300, 0x104, 0x200, 0x106))
        room.passes(COUNT, "raftershim_line_byte: 2 instructions on average of 2, 3 at most")
        room.finds(COUNT, "no call of raftershim_loop_frame was seen", ("trace", trace(0x200, 0x300, 0x100, 0x200, 0x102)))
        return room.count
