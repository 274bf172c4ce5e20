"""What rt ci says that tools/verdict.py must not take for a pass."""
from planting import Room

TOOL = ["python3", "tools/verdict.py", "log"]
OK = "rt: ok; handles allowed: none; must-fail edits: 34 refused; every proof and must-fail edit was done in this run\n"
LOG = f"rt: low proved\nrt: must-fail low/e.edit: refused, as it must be: note: 7 bad signs\n{OK}76 passed, 0 failed\n"


def run():
    """Plants every fault; how many."""
    with Room("tools/verdict.py") as room:
        room.write("log", LOG)
        room.passes(TOOL, "76\n")
        room.finds(TOOL, "3 must-fail edits are bad", ("log", "34 refused", "31 refused, 3 bad"))
        room.finds(TOOL, "3 must-fail edits are bad", ("log", "34 refused", "31 refused, 2 of them only by a limit, 3 bad"))
        room.finds(TOOL, "12 must-fail edits are bad", ("log", "34 refused", "0 refused, 12 bad"))
        room.finds(TOOL, "0 lines begin with 'rt: ok'", ("log", OK, "rt: FAILED: low/e.edit\n"))
        room.finds(TOOL, "the last line counts no pass: 75 passed, 1 failed", ("log", "76 passed, 0 failed", "75 passed, 1 failed"))
        room.finds(TOOL, "the last line counts no pass", ("log", "76 passed, 0 failed", "76 passed, 0 failed (low and the crates below alone: not the gate)"))
        room.finds(TOOL, "the last line counts no pass", ("log", "76 passed, 0 failed\n", ""))
        room.finds(TOOL, "the last line counts no pass", ("log", "76 passed", "176 passed, 0 failed\n76 passed, 0 failed, at most"))
        return room.count
