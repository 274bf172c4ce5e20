"""Says the deepest stack of a call for each target and crate, from the stack of each function and from which function calls which.

Usage: python3 archives/stack.py [TRIPLE...]    (without a word: every target)
The stack of a function is what the code generator notes beside it. What the copying of memory takes, where an archive asks for it, is not
in it, and no function may be recursive.
"""
import functools
import os
import re
import subprocess
import sys

ROOT = os.path.dirname(os.path.dirname(os.path.abspath(__file__)))
# On x86-64 a call itself puts the place to return to on the stack; elsewhere a function saves it in its own part. And there a function
# that calls no other may use 128 bytes below its own part, of which nothing is noted.
RETURN = {"x86_64-unknown-linux-gnu": 8}
BELOW = {"x86_64-unknown-linux-gnu": 128}


def run(*words):
    """What a command prints."""
    return subprocess.run(words, cwd=ROOT, check=True, stdout=subprocess.PIPE, encoding="utf-8").stdout


def listed(name):
    """The first word of each line in a list of this folder: the names of all targets, or of all crates that make the archive."""
    with open(os.path.join(ROOT, "archives", name), encoding="utf-8") as file:
        return [line.split()[0] for line in file if not line.startswith("#")]


def extracted(archive, crate):
    """The path of a copy of a crate's object, beside the archive."""
    path = os.path.join(ROOT, os.path.dirname(archive), f"{crate}.o")
    with open(path, "wb") as file:
        subprocess.run(("llvm-ar", "p", archive, f"{crate}.o"), cwd=ROOT, check=True, stdout=file)
    return path


def frames(path):
    """The stack of each function of an object by its name."""
    rows = re.findall(r"^\s+(\d+)\s+(\S.*)$", run("llvm-readelf", "--stack-sizes", path), re.M)
    return {name: int(size) for size, name in rows}


def callees(path, functions):
    """The functions that each function of an object names in its code."""
    found = {name: set() for name in functions}
    inside = None
    for line in run("llvm-objdump", "-dr", "--no-show-raw-insn", path).splitlines():
        if begins := re.match(r"[0-9a-f]+ <(.*)>:$", line):
            inside = begins[1] if begins[1] in found else inside
        elif named := re.search(r":\s+R_\w+\s+(?:\.text\.)?(.+?)(?:[-+]0x[0-9a-f]+)?$", line):
            if named[1] in found and named[1] != inside:
                found[inside].add(named[1])
    return found


def deepest(triple, path):
    """The most bytes of stack that a call of an object takes, and the functions on the way there."""
    size = frames(path)
    calls = callees(path, size)

    @functools.lru_cache(None)
    def below(name):
        depth, path = max((below(callee) for callee in calls[name]), default=(BELOW.get(triple, 0), ()))
        return depth + size[name] + RETURN.get(triple, 0), (name, *path)

    return max(below(name) for name in size)


def main():
    """A line for each target and crate."""
    for triple in sys.argv[1:] or listed("targets"):
        (archive,) = run("sh", "archives/make.sh", "--stack-sizes", triple).split()
        for crate in listed("crates"):
            depth, path = deepest(triple, extracted(archive, crate))
            print(f"{triple}, {crate}: {depth} bytes, {', '.join(path)}")


if __name__ == "__main__":
    main()
