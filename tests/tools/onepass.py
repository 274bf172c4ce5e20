"""Faults of outputs that tests/onepass/run.py must find. The program is a line of shell that prints how it was told to."""
import sys

from planting import Room

TOOL = [sys.executable, "tests/onepass/run.py", "sh", "program.sh"]
PROGRAM = 'case $(wc -c | tr -d " ") in 4) echo "whole";; 5) echo "longer";; *) echo "refused 9";; esac\n'


def run():
    """Plants every fault; how many."""
    with Room("tests/onepass/run.py") as room:
        room.write("program.sh", PROGRAM)
        room.write("tests/onepass/paper.hex", "01 02 # a comment\n03 04\n")
        room.write("tests/onepass/paper.out", "whole\n")
        room.write("tests/onepass/more.hex", "0102030405\n")
        room.write("tests/onepass/more.out", "longer\n")
        room.passes(TOOL, "6 inputs, 0 with another output")
        room.finds(TOOL, "paper.hex: printed", ("tests/onepass/paper.out", "hole\n"))
        room.finds(TOOL, "more.hex: printed", ("tests/onepass/more.out", "longer\n\n"))
        room.finds(TOOL, "more.hex: printed", ("tests/onepass/more.out", None))
        room.finds(TOOL, "more.hex: printed", ("tests/onepass/more.hex", "01020304\n"))
        room.finds(TOOL, "the first 3 bytes of paper.hex: printed", ("program.sh", "in 4)", "in 3|4)"))
        room.finds(TOOL, "more.hex: printed", ("program.sh", PROGRAM + "exit 1\n"))
        return room.count
