"""Plants the faults that each tool is there for, and sees the tool find each.

Usage: python3 tests/tools/run.py              all of them
       python3 tests/tools/run.py --unbuilt    those that need nothing built, or --built for the others
       python3 tests/tools/run.py NAME...      these; a NAME is a file of this folder
"""
import importlib
import pathlib
import sys
import time

sys.dont_write_bytecode = True
from planting import Missed

# Every file of this folder is run, but for those that serve the others.
SERVING = {"planting", "prover", "run"}
BUILT = ["archive", "board", "examples"]
UNBUILT = sorted({path.stem for path in pathlib.Path(__file__).parent.glob("*.py")} - SERVING - set(BUILT))
GROUPS = {(): UNBUILT + BUILT, ("--unbuilt",): UNBUILT, ("--built",): BUILT}


def main():
    """Runs each file's faults and says how many there were; 1 if a tool missed one."""
    missed = 0
    for name in GROUPS.get(tuple(sys.argv[1:]), sys.argv[1:]):
        began = time.monotonic()
        try:
            print(f"{name}: {importlib.import_module(name).run()} cases as they must be ({time.monotonic() - began:.0f} s)", flush=True)
        except Missed as fault:
            missed += 1
            print(f"{name}: {fault}", flush=True)
    return 1 if missed else 0


if __name__ == "__main__":
    sys.exit(main())
