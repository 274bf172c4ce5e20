"""Holds the layout of the block in each C header to the packing that the proofs are about, specs/Packed.antt of the crates block and mailblock.

Usage: python3 tests/c/layout.py    (in the repository's root)
Each row of a packing is a field with its place and its kind. The header has a place of a name of its own for each, and for no other.
"""
import re
import sys

# What the bridge's header calls a field of the packing, the registers aside, which have one name in both.
BRIDGE = {
    ".margin": "MARGIN",
    ".rx.cap": "RECEIVE_LEN",
    ".rx.oldest": "RECEIVE_OLDEST",
    ".rx.len": "RECEIVE_HELD",
    ".tx.cap": "TRANSMIT_LEN",
    ".tx.oldest": "TRANSMIT_OLDEST",
    ".tx.len": "TRANSMIT_HELD",
    ".counts.stored": "STORED",
    ".counts.lost": "LOST",
    ".counts.sent": "SENT",
    ".talker.role.address": "ADDRESS",
    ".talker.role.phase": "TALKER",
    ".talker.role.listener": "LISTENER",
    ".talker.under.frame": "UNDER_WAY",
    ".talker.under.finishing": "FINISHING",
    ".line.holding": "HOLDING",
    ".line.forbidden": "FORBIDDEN",
    ".line.stopped": "STOP_SENT_LAST",
    ".notes.seen.brk": "SEEN_BREAK",
    ".notes.seen.overrun": "SEEN_OVERRUN",
    ".notes.seen.key": "SEEN_KEY",
    ".notes.again.brk": "AGAIN_BREAK",
    ".notes.again.overrun": "AGAIN_OVERRUN",
    ".notes.again.key": "AGAIN_KEY",
    ".notes.request": "REQUEST",
    ".remote.enabled": "REMOTE_ENABLED",
    ".remote.remote": "REMOTE",
}
# What the mailbox's header calls a field.
MAILBOX = {
    ".tobus.ring.cap": "TO_BUS_LEN",
    ".tobus.ring.oldest": "TO_BUS_OLDEST",
    ".tobus.ring.len": "TO_BUS_HELD",
    ".toloop.ring.cap": "TO_LOOP_LEN",
    ".toloop.ring.oldest": "TO_LOOP_OLDEST",
    ".toloop.ring.len": "TO_LOOP_HELD",
    ".talker.under.frame": "UNDER_WAY",
    ".hold.frame": "HELD_FRAME",
    ".talker.role.address": "LOOP_ADDRESS",
    ".talker.role.phase": "LOOP_TALKER",
    ".talker.role.listener": "LOOP_LISTENER",
    ".talker.under.finishing": "FINISHING",
    ".source": "SOURCE",
    ".response.line": "LOOP_POLL_LINE",
    ".bus.role.address": "BUS_ADDRESS",
    ".bus.role.phase": "BUS_TALKER",
    ".bus.line": "BUS_POLL_LINE",
    ".bus.role.listener": "BUS_LISTENER",
    ".tobus.news.request": "TO_BUS_REQUEST",
    ".tobus.news.available": "TO_BUS_AVAILABLE",
    ".tobus.news.again": "TO_BUS_AGAIN",
    ".toloop.news.request": "TO_LOOP_REQUEST",
    ".toloop.news.available": "TO_LOOP_AVAILABLE",
    ".toloop.news.again": "TO_LOOP_AGAIN",
    ".hold.enabled": "NOT_READY",
    ".hold.held": "HOLDING",
    ".response.on": "LOOP_POLL",
    ".response.sense": "LOOP_POLL_SENSE",
    ".bus.serial": "SERIAL_POLL",
    ".bus.read": "STATUS_READ",
    ".bus.configuring": "CONFIGURING",
    ".bus.polled": "BUS_POLL",
}
# Each block: the header, what its names begin with, the packing, and the names.
BLOCKS = (
    ("include/raftershim.h", "RAFTERSHIM_", "crates/block/specs/Packed.antt", BRIDGE),
    ("include/raftershim_mailbox.h", "RAFTERSHIM_MAILBOX_", "crates/mailblock/specs/Packed.antt", MAILBOX),
)


def read(path):
    """The text of a file."""
    with open(path, encoding="utf-8") as file:
        return file.read()


def packed(text, names):
    """What the packing says: the length and the version of a block, and by name the place and the kind of each field."""
    rows = re.findall(r"field (\d+) (\w+) \(λ s\. s(\..*)\)", text)
    said = {"BLOCK_LEN": re.search(r"^block_len = (\d+)$", text, re.M)[1], "VERSION": re.search(r"^version = (\d+)$", text, re.M)[1]}
    for place, kind, field in rows:
        name = re.fullmatch(r"\.regs\.([rc]\d\d)", field)
        said["AT_" + (name[1].upper() if name else names.get(field, field))] = f"{place} {kind}"
    return {**said, "AT_VERSION": "0 byte"}


def declared(text, begin):
    """What the header says, by the same names."""
    said = {name: number for name, number in re.findall(rf"^#define {begin}(BLOCK_LEN|VERSION) (\d+)u$", text, re.M)}
    for name, place, kind in re.findall(rf"^#define {begin}(AT_\w+) (\d+)u /\* (\w+): ", text, re.M):
        said[name] = f"{place} {kind}"
    return said


def differing(header, begin, packing, names):
    """Says how many fields of a block agree, and which do not; how many those are."""
    proved, said = packed(read(packing), names), declared(read(header), begin)
    wrong = [name for name in sorted({*proved, *said}) if proved.get(name) != said.get(name)]
    for name in wrong:
        print(f"{name}: the header has {said.get(name, 'no such name')}, the packing {proved.get(name, 'no such field')}")
    print(f"{header}: {len(proved) - 2} fields of the block, {len(wrong)} not as packed")
    return len(wrong)


def main():
    """Compares every block; 1 if a field differs."""
    return 1 if sum(differing(*block) for block in BLOCKS) else 0


if __name__ == "__main__":
    sys.exit(main())
