"""Programs that tools/run.sh must not show: one that is not proved, one that prints something else, and one that is not there."""
import os

from planting import Missed, Room

TOOL = ["sh", "tools/run.sh", "one"]
PROVED = """#!/bin/sh
printf 'fn one: proved\\n%.0s' 1 2 3
mkdir -p out
printf '#!/bin/sh\\ncat\\n' > out/one
chmod +x out/one
"""
REFUSED = "#!/bin/sh\necho 'fn one: not proved'\nexit 1\n"


def build(room):
    """A small repository with one program, and a prover that says what it is told to say."""
    room.write("crates/one/src/main.rt", "fn main() {}\n")
    room.write("crates/one/stdin", "seven\n")
    room.write("crates/one/stdout", "seven\n")
    room.write("bin/rt", PROVED)
    os.chmod(room.at("bin/rt"), 0o755)


def run():
    """Plants every fault; how many."""
    with Room("tools") as room:
        build(room)
        path = {"PATH": f"{room.at('bin')}:{os.environ['PATH']}"}
        room.passes(TOOL, "seven\n", **path)
        if "fn one" in room.run(TOOL, **path)[1]:
            raise Missed("tools/run.sh shows what the prover says")
        room.finds(TOOL, "fn one: not proved", ("bin/rt", REFUSED), **path)
        room.finds(TOOL, "one is not proved, or it failed", ("bin/rt", REFUSED), **path)
        room.finds(TOOL, "one printed something else", ("crates/one/stdout", "eight\n"), **path)
        status, printed = room.run(TOOL[:2] + ["two"], **path)
        if status != 2 or "name a program" not in printed:
            raise Missed(f"tools/run.sh takes a program that is not there (exit {status}): {printed}")
        return room.count + 2
