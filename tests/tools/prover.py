"""Stands in for rt and for the kit's compiler in the tests of the tools: it proves a crate whose code has no word of a fault in it."""
import os
import sys

IN_PROOF = "./proofs/one/Answers.antt:1:1: error: the two sides differ\nfn {0}::one: not proved\n"
IN_CODE = "src/deep.rt:1:5: it is not proved that 1 < 0\nfn {0}::deep::three: no proof: expected answers\n"
CALLER = "fn {0}::two: no proof: it calls `{0}::one`, which is not proved\n"
SAID = {
    "wrong": (1, IN_PROOF + IN_CODE + CALLER + "logic=not-proved"),
    "second": (1, "./proofs/two/Answers.antt:1:1: error: the two sides differ\nfn {0}::two: not proved\nlogic=not-proved"),
    "unfit": (1, "error: `returns` has no `Need-x` that can be named from here\nlogic=not-proved"),
    "silent": (1, "nothing\nlogic=not-proved"),
    "crash": (2, "the toolchain failed"),
    "refuse": (1, "src/lib.rt:1:1: error[unknown-name]: bad usage"),
}
PROGRAM = f"#!/bin/sh\nexec python3 -I -S {os.path.abspath(__file__)} \"$@\"\n"


def furnish(room):
    """Puts a kit of this stub into a room; the path that finds its rt."""
    for path in ("kit/bin/rattle", "bin/rt"):
        room.write(path, PROGRAM)
        os.chmod(room.at(path), 0o755)
    return {"PATH": f"{room.at('bin')}:{os.environ['PATH']}", "STUB_KIT": room.at("kit")}


def library():
    """Builds the library of the crate in whose folder this is run, unless a word says that it is not proved."""
    if os.environ.get("STUB_UNPROVED"):
        print("the library is not proved")
        return 1
    crate = os.path.basename(os.getcwd())
    os.makedirs(f"out/rlib/{crate}.rlib", exist_ok=True)
    with open(f"out/rlib/{crate}.rlib/format", "w", encoding="utf-8") as file:
        file.write("by rt lib")
    with open(os.path.join(os.environ["STUB_KIT"], "built"), "a", encoding="utf-8") as file:
        file.write(f"{crate} ")
    return 0


def check(words):
    """Checks the crate in whose folder this is run."""
    if os.environ.get("STUB_CHANGES"):
        with open(os.environ["STUB_CHANGES"], "a", encoding="utf-8") as file:
            file.write("// more\n")
    with open("src/lib.rt", encoding="utf-8") as file:
        text = file.read()
    for word, (status, said) in SAID.items():
        if word in text:
            print(f"\n{said.format(words[words.index('--crate-name') + 1])}")
            return status
    print("\nlogic=proved")
    return 0


def main():
    """Answers `rt version`, `rt doc`, `rt lib` and `rattle check`."""
    if sys.argv[1] == "version":
        print("a stub", os.environ.get("STUB_VERSION", ""))
    elif sys.argv[1] == "doc":
        print(f"{os.environ['STUB_KIT']}/START-HERE.md")
    else:
        return library() if sys.argv[1] == "lib" else check(sys.argv[2:])
    return 0


if __name__ == "__main__":
    sys.exit(main())
