"""Runs the program onepass on stored inputs and holds what it prints to the stored outputs.

Usage: python3 tests/onepass/run.py [PROGRAM]    (after rt ci, or rt run in its folder, which build it; PROGRAM stands in for it)
An input is a file of hexadecimal digits, where # starts a comment; its output stands beside it. Every shortened copy of the paper's
input is tried too, and must print refused 9 alone.
"""
import glob
import os
import subprocess
import sys

HERE = os.path.dirname(os.path.abspath(__file__))
PROGRAM = os.path.join(HERE, "..", "..", "crates", "onepass", "out", "onepass")


def read_hex(path):
    return bytes.fromhex("".join(line.split("#")[0] for line in open(path, encoding="utf-8")))


def main():
    command = sys.argv[1:] or [PROGRAM]
    cases = []
    for path in sorted(glob.glob(os.path.join(HERE, "*.hex"))):
        wanted = open(path[:-4] + ".out", "rb").read() if os.path.exists(path[:-4] + ".out") else b"no output is stored"
        cases.append((os.path.basename(path), read_hex(path), wanted))
    paper = read_hex(os.path.join(HERE, "paper.hex"))
    for n in range(len(paper)):
        cases.append((f"the first {n} bytes of paper.hex", paper[:n], b"refused 9\n"))
    wrong = 0
    for name, given, wanted in cases:
        done = subprocess.run(command, input=given, stdout=subprocess.PIPE, check=False)
        if done.stdout != wanted or done.returncode:
            wrong += 1
            print(f"{name}: printed {done.stdout!r}, and not {wanted!r} (exit {done.returncode})")
    print(f"{len(cases)} inputs, {wrong} with another output")
    return 1 if wrong or not cases else 0


sys.exit(main())
