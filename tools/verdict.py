"""Reads what rt ci said, and prints how many checks it counted.

Usage: python3 tools/verdict.py LOG    (LOG is what rt ci printed)
rt ci itself passes where a must-fail edit is bad, so that it cannot be applied, compiled or read and shows nothing. It says how many are, on
its line that begins with `rt: ok`. Here one is a failure, and so is a last line that counts a failure, or a line that is missing.
"""
import re
import sys

OK = re.compile(r"^rt: ok; .*", re.M)
BAD = re.compile(r", (\d+) bad\b")
COUNTED = re.compile(r"(\d+) passed, 0 failed")


def faults(text):
    """What rt ci said that is no pass."""
    said, last = OK.findall(text), text.rstrip("\n").rpartition("\n")[2]
    wrong = [] if COUNTED.fullmatch(last) else [f"the last line counts no pass: {last}"]
    wrong += [] if len(said) == 1 else [f"{len(said)} lines begin with 'rt: ok', not one"]
    bad = sum(int(number) for line in said for number in BAD.findall(line))
    return wrong + ([f"{bad} must-fail edits are bad"] if bad else [])


def main():
    """Prints the number of checks; 1 and the faults where there is one."""
    with open(sys.argv[1], encoding="utf-8") as file:
        text = file.read()
    wrong = faults(text)
    if wrong:
        print("".join(f"{sys.argv[1]}: {fault}\n" for fault in wrong), end="", file=sys.stderr)
        return 1
    print(COUNTED.search(text.rstrip("\n").rpartition("\n")[2]).group(1))
    return 0


if __name__ == "__main__":
    sys.exit(main())
