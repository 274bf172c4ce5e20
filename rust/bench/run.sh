#!/bin/sh
# Counts the instructions of the archive beside the plain model, on works of the bridge and of the mailbox, and for the bridge beside a
# peer written for speed too, and prints Markdown:
# sh rust/bench/run.sh [--target TRIPLE] [--limit 1.5]   (without a target: this machine's own)
# Fails if a side ever answers otherwise or leaves other bytes, and with a limit if the archive takes more than that many times the
# model's instructions on any work.
set -eu
cd "$(dirname "$0")/../.."
. archives/tools.sh
here=rust/bench
# The works of the bridge, and one for each way through the mailbox.
works='meter print status to-bus to-loop'
stores='64 1024 32768'
# The rounds of the two counts whose difference is taken, with as many digits each: they take the same to read. With a store of 64 the
# places come round several times in between.
few=10
many=30
# The rounds in which the sides are held together.
held=100

limit=0
triple=$own
while [ $# -gt 0 ]; do
    case "$1 ${2-}" in
        '--limit '[0-9]*) limit=$2 ;;
        '--target '?*) triple=$2 ;;
        *) echo 'run.sh: words: [--target TRIPLE] [--limit RATIO]' >&2; exit 2 ;;
    esac
    shift 2
done

for_target "$triple"
# Each target has a folder of its own, so that two may be counted beside each other.
work=target/bench/$triple
need llvm llvm-size
need valgrind valgrind
sh rust/cargo.sh "$triple" build --release --quiet -p raftershim-bench
if [ "$triple" = "$own" ]; then
    bench=target/rust/release/bench
    tool=callgrind
else
    bench=target/rust/$triple/release/bench
    tool='the emulator'
    # The emulator is slow: the smallest and the largest store tell.
    stores='64 32768'
fi

# Holds the sides together call by call, for every work and store.
compare() {
    for job in $works; do
        for store in $stores; do
            $emulator "$bench" compare "$job" "$store" "$held" > /dev/null
        done
    done
}

# Counts every side on every work and store, a line each.
counts() {
    for job in $works; do
        for store in $stores; do
            for side in $($emulator "$bench" sides "$job"); do
                for rounds in $few $many; do
                    # shellcheck disable=SC2086 # no word where there is no emulator
                    line=$(sh "$here/count.sh" $emulator "$bench" "$side" "$job" "$store" "$rounds")
                    echo "$job $store $side $rounds $line"
                done
            done
        done
    done
}

mkdir -p "$work"
compare
counts > "$work/counts"
echo "Instructions on $triple, counted by $tool, of archive, model and peer behind the same block boundary. The mailbox has no peer. The"
echo 'loop that calls them is not counted. Bytes are those that went out on the other side, for status the polls. The margin of the bridge is'
echo 'an eighth of the store, at most 1024.'
echo
status=0
awk -v limit="$limit" -v smallest="${stores%% *}" -v largest="${stores##* }" -f "$here/table.awk" "$work/counts" || status=1
text=$(llvm-size -A "$(archive_of "$triple")" | awk '$1 ~ /^\.text/ { sum += $2 } END { print sum + 0; exit !sum }')
echo "- Code of the archive: $text bytes."
for machine in 'bridge meter' 'mailbox to-bus'; do
    for side in archive model; do
        deepest=$($emulator "$bench" stack "${machine#* }" "$side")
        echo "- Deepest stack of a call of the ${machine% *}, its return address included, $side: $deepest."
    done
done
echo '- The stores and the block are zeroed once before a run, not between rounds.'
exit "$status"
