"""Installs that meet, which archives/tools.sh must let wait for each other, and a command that is there before what it needs."""
import os

from planting import Room

# Stands in for Debian's: it is in use by one at a time, and what it installs is whole some time after its command is there.
APT = """#!/bin/sh
mkdir busy || { echo 'it is in use' >&2; exit 100; }
if [ "$1" = install ]; then
    printf '#!/bin/sh\\ncat needed\\n' > bin/tool
    chmod +x bin/tool
    sleep 1.5
    echo whole > needed
fi
sleep 0.2
rmdir busy
"""
TOOLS = "archives/tools.sh"
TWO = ["sh", "-c", f". {TOOLS}; install one & first=$!; install two & second=$!; wait $first && wait $second || exit 1"]
HALF = """. archives/tools.sh
rm -f bin/tool needed
install tool &
until [ -x bin/tool ]; do sleep 0.1; done
need tool tool
tool
status=$?
wait
exit $status
"""


def run():
    """Plants every fault; how many."""
    with Room("archives") as room:
        room.write("bin/apt-get", APT)
        os.chmod(room.at("bin/apt-get"), 0o755)
        path = {"PATH": f"{room.at('bin')}:{os.environ['PATH']}"}
        room.passes(TWO, **path)
        room.finds(TWO, "it is in use", (TOOLS, "        flock 9\n", ""), **path)
        room.passes(["sh", "-c", HALF], "whole\n", **path)
        room.finds(["sh", "-c", HALF], "needed: No such file", (TOOLS, "    settled\n", ""), **path)
        return room.count
