"""Failures that tools/counted.sh must count: of a check, of one that runs beside others, and of checks that did not come to their end."""
from planting import Room

TOOL = ["bash", "gate"]
GATE = """. tools/counted.sh
sides() {
    check 'third' sh third
    check 'fourth' true
}
check 'first' sh first
beside sides
check 'second' true
joined
counted
"""


def run():
    """Plants every fault; how many."""
    with Room("tools") as room:
        room.write("gate", GATE)
        room.write("first", "exit 0\n")
        room.write("third", "exit 0\n")
        room.passes(TOOL, "4 passed, 0 failed\n")
        room.finds(TOOL, "== FAILED: first\n", ("first", "exit 3\n"))
        room.finds(TOOL, "3 passed, 1 failed\n", ("first", "exit 3\n"))
        room.finds(TOOL, "== FAILED: third\n", ("third", "exit 3\n"))
        room.finds(TOOL, "3 passed, 1 failed\n", ("third", "exit 3\n"))
        room.finds(TOOL, "did not come to their end\n2 passed, 1 failed\n", ("gate", GATE.replace("sh third", "exit 0")))
        room.finds(TOOL, "did not come to their end\n2 passed, 1 failed\n", ("gate", GATE.replace("sh third", "kill -9 $BASHPID")))
        return room.count
