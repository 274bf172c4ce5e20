#!/bin/sh
# Proves, builds and runs a program of the repository, and shows what it prints: sh tools/run.sh PROGRAM
# A program is a crate with a main function: onepass or examples. It is run on its stored input, and what it prints is held to its stored
# output. What the prover says goes to a file; where something fails, the file's last lines are shown.
set -eu
cd "$(dirname "$0")/.."
name=${1:-}
if [ ! -f "crates/$name/src/main.rt" ]; then
    echo "run.sh: name a program, as in: sh tools/run.sh onepass" >&2
    exit 2
fi
said=$PWD/target/run-$name.txt
printed=$PWD/target/run-$name.out
mkdir -p target
cd "crates/$name"
echo "Proving and building $name. The first time this takes minutes." >&2
if ! rt run < stdin > "$said" 2>&1; then
    tail -n 20 "$said" >&2
    echo "run.sh: $name is not proved, or it failed. All that was said is in $said." >&2
    exit 1
fi
"out/$name" < stdin > "$printed"
if ! cmp "$printed" stdout >&2; then
    echo "run.sh: $name printed something else than is in crates/$name/stdout. What it printed is in $printed." >&2
    exit 1
fi
cat "$printed"
