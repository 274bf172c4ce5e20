"""Faults of the C examples that examples/run.sh must find, and of their notes of gaps, which tests/c/run.sh must find."""
from planting import Room

TOOL = ["sh", "examples/run.sh", "meter", "dongle"]
CALLS = ["sh", "tests/c/run.sh"]
PORTS = ["sh", "examples/run.sh", "ports"]
GAPS = "examples/c/gaps.h"
DONGLE = "examples/dongle/main.c"
MAILBOX = ["sh", "examples/run.sh", "mailbox"]


def run():
    """Plants every fault; how many."""
    with Room("examples", "include", "archives", "tests/board", "tests/c") as room:
        room.lend_archives()
        room.passes(TOOL, "dongle: 11 readings whole, 1 with a byte missing, as stored")
        room.finds(TOOL, "meter prints something else", ("examples/c/meter.said", "25: a byte is missing", "2.5: whole"))
        room.finds(TOOL, "dongle prints something else", ("examples/dongle/dongle.said", "stop\n", ""))
        room.finds(TOOL, "dongle prints something else", (DONGLE, "gaps_note(&gaps, block);", ""))
        room.finds(TOOL, "dongle prints something else", (DONGLE, " && line_give(byte)", " && 0"))
        room.passes(MAILBOX, "mailbox: 2 readings whole, 0 with a byte missing, as stored")
        room.finds(MAILBOX, "> -12.: not ended", ("examples/c/mailbox.c", "== RAFTERSHIM_REFUSED) break;", "== RAFTERSHIM_REFUSED) continue;"))
        room.finds(MAILBOX, "> 2.5: not ended", ("examples/c/mailbox.c", "text[1] == '\\0'", "0"))
        room.passes(PORTS, "ports: 6 readings whole, 6 with a byte missing, as stored")
        room.finds(PORTS, "> 25: whole", (DONGLE, "line_overran() || (came && overran_before)", "line_overran()"))
        room.finds(PORTS, "> .5: whole", (DONGLE, "if (overran || overran_before)", "if (overran)"))
        room.finds(PORTS, "> 1.5: whole", (DONGLE, "if (IS_CLEAR(frame, block))", "if (frame == DEVICE_CLEAR)"))
        room.finds(PORTS, "> 1.5: whole", (DONGLE, "if (IS_CLEAR(frame, block))", "if (frame == SELECTED_DEVICE_CLEAR)"))
        room.finds(PORTS, "> 12.5: a byte is missing", ("examples/c/frames.h", " && (block)[RAFTERSHIM_AT_LISTENER]", ""))
        room.finds(PORTS, "> the line got 3 in 3 tries", (DONGLE, " && line_give(byte)) ", ") line_give(byte), "))
        room.finds(PORTS, "> the line got RRR in 9 tries", (DONGLE, "raftershim_take_line_byte(LENT, byte);", "return;"))
        room.passes(CALLS, "as in the history")
        room.finds(CALLS, "by the history", (GAPS, "< taken - gaps->taken", "<= taken - gaps->taken"))
        room.finds(CALLS, "by the history", (GAPS, "gaps->missing |= passed", "gaps->missing = passed"))
        room.finds(CALLS, "by the history", (GAPS, "gaps->missing = 0;", ""))
        room.finds(CALLS, "by the history", (GAPS, "RAFTERSHIM_LOST(block) == gaps->lost", "gaps->lost"))
        for line in ("count = 0u", "missing = 1"):
            room.finds(CALLS, "by the history", (GAPS, f"    gaps->{line};\n", ""))
        return room.count
