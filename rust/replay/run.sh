#!/bin/sh
# Builds the program replay and plays every script of the folder scripts, and a wrong script that must fail: sh rust/replay/run.sh
# Says how many scripts and lines were as expected; fails on a difference.
set -eu
cd "$(dirname "$0")/../.."
cargo build --quiet -p raftershim-replay
replay=target/rust/debug/replay
said=target/rust/replay.said
scripts=0
lines=0
failed=0

for script in scripts/*.script; do
    if "$replay" "$script" > "$said"; then
        last=$(tail -n 1 "$said")
        scripts=$((scripts + 1))
        lines=$((lines + ${last%% *}))
    else
        failed=$((failed + 1))
        echo "$script is not as expected:"
        grep -e ': expected ' -e ' as expected, ' -e ' is expected' "$said" || true
    fi
done

wrong=rust/replay/tests/data/wrong
status=0
"$replay" "$wrong.script" > "$said" || status=$?
if [ "$status" -eq 1 ] && cmp -s "$said" "$wrong.said"; then
    found='found wrong'
else
    failed=$((failed + 1))
    found='not found wrong'
fi

echo "replay: $scripts scripts and $lines lines as expected, the wrong script $found, $failed failed"
[ "$failed" -eq 0 ] && [ "$scripts" -gt 0 ] && [ "$lines" -gt 0 ]
