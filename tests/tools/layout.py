"""Faults of the header's layout of the block that tests/c/layout.py must find."""
import sys

from planting import Room

TOOL = [sys.executable, "tests/c/layout.py"]
HEADER = "include/raftershim.h"
PACKING = "crates/block/specs/Packed.antt"
MAILBOX = "include/raftershim_mailbox.h"
MAILBLOCK = "crates/mailblock/specs/Packed.antt"


def run():
    """Plants every fault; how many."""
    with Room("tests/c", HEADER, PACKING, MAILBOX, MAILBLOCK) as room:
        room.passes(TOOL, f"{HEADER}: 39 fields of the block, 0 not as packed")
        room.passes(TOOL, f"{MAILBOX}: 33 fields of the block, 0 not as packed")
        room.finds(TOOL, "AT_LOST: the header has 15 four", (HEADER, "AT_LOST 19u", "AT_LOST 15u"))
        room.finds(TOOL, "AT_SENT: the header has 23 two", (HEADER, "AT_SENT 23u /* four", "AT_SENT 23u /* two"))
        room.finds(TOOL, "AT_REMOTE: the header has no such name", (HEADER, "#define RAFTERSHIM_AT_REMOTE 55u", "#define RAFTERSHIM_REMOTE 55u"))
        room.finds(TOOL, "AT_MORE: the header has 56 byte", (HEADER, "\n/* The talker phases.", "\n#define RAFTERSHIM_AT_MORE 56u /* byte: more */\n/*"))
        room.finds(TOOL, "BLOCK_LEN: the header has 57", (HEADER, "BLOCK_LEN 56u", "BLOCK_LEN 57u"))
        room.finds(TOOL, "VERSION: the header has 3, the packing 4", (PACKING, "version = 3", "version = 4"))
        room.finds(TOOL, "AT_KEY: the header has no", (PACKING, "field 49 flag (λ s. s.notes.seen.key)", "field 49 flag (λ s. s.AT_KEY)"))
        room.finds(TOOL, "AT_R10: the header has 36 byte, the packing 37 byte", (PACKING, "field 36 byte", "field 37 byte"))
        room.finds(TOOL, "AT_SOURCE: the header has 22 byte", (MAILBOX, "AT_SOURCE 21u", "AT_SOURCE 22u"))
        room.finds(TOOL, "AT_HOLDING: the header has no such name", (MAILBOX, "#define RAFTERSHIM_MAILBOX_AT_HOLDING", "#define RAFTERSHIM_AT_HOLDING"))
        room.finds(TOOL, "BLOCK_LEN: the header has 41, the packing 42", (MAILBLOCK, "block_len = 41", "block_len = 42"))
        room.finds(TOOL, "VERSION: the header has 2", (MAILBOX, "VERSION 129u", "VERSION 2u"))
        room.finds(TOOL, "AT_NOT_READY: the header has 33 flag, the packing 33 byte", (MAILBLOCK, "field 33 flag", "field 33 byte"))
        return room.count
