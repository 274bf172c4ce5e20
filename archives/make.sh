#!/bin/sh
# Builds the archive of the proved C functions for each target named: sh archives/make.sh [--stack-sizes] [TRIPLE... | all]
# Without a target it is for this machine. The archive is target/staticlib/TRIPLE/libraftershim.a; archives/targets has the targets and
# archives/crates the crates, each of which is an object of it. With --stack-sizes it has a note of each function's stack besides, and
# stands in target/stack/TRIPLE.
# The kit proves a crate and lowers it to one LLVM module, which its own clang compiles for x86-64. Here it is given a toolchain, made of
# links, whose clang keeps the module and the words too. The kit's clang then compiles that module for each target, so one proof serves all.
# A module is kept until a source of its crate or of one below it, or the kit, changes. The proofs end at the module: clang is trusted for
# each target.
set -eu
top=$(cd "$(dirname "$0")/.." && pwd)
modules=$top/target/staticlib
say() { echo "make.sh: $*" >&2; }
known() { (cd "$top" && . archives/tools.sh && "$1"); }

# The toolchain of the kit, by links, whose clang keeps the module that it is given and the words for it.
keeping_toolchain() { # FOLDER
    mkdir -p "$1/bin"
    ln -s "$home/toolchain/lib" "$1/lib"
    for file in "$home/toolchain/bin"/*; do [ "${file##*/}" = clang ] || ln -s "$file" "$1/bin/"; done
    cat > "$1/bin/clang" <<WRAP
#!/bin/sh
[ ! -f module.bc ] || { cp module.bc "$1/module.bc" && printf '%s\n' "\$@" > "$1/words"; }
exec "$home/toolchain/bin/clang" "\$@"
WRAP
    chmod +x "$1/bin/clang"
}

# Has the kit prove a crate and build its own archive of it, by the toolchain that keeps the module.
lower() { # CRATE
    (cd "$top" && python3 tools/kit.py "$1") > "$work/words" || return 1
    mkdir -p "$modules"
    cd "$top/crates/$1"
    xargs -d '\n' -a "$work/words" "$home/bin/rattle" build --toolchain "$work/toolchain" --backend llvm -o "$modules/lib$1.a"
}

# Proves a crate and lowers it, unless the module that is kept is of the same sources.
module() { # CRATE
    kept=$modules/$1.bc
    (cd "$top" && python3 tools/kit.py --of "$1") > "$work/made-of"
    if [ -f "$kept" ] && cmp -s "$work/made-of" "$kept.made-of"; then return; fi
    say "proving and lowering the crate $1, which takes a minute, and more if the crates below it are not proved yet"
    [ -d "$work/toolchain" ] || keeping_toolchain "$work/toolchain"
    rm -f "$work/toolchain/module.bc"
    (lower "$1") > "$work/said" 2>&1 || { cat "$work/said" >&2; exit 1; }
    [ -f "$work/toolchain/module.bc" ] || { say 'the kit gave its clang no module.bc to keep'; exit 1; }
    cp "$work/toolchain/module.bc" "$kept"
    cp "$work/toolchain/words" "$kept.words"
    cp "$work/made-of" "$kept.made-of"
}

# The words that the kit gave its clang for a module, but for the target, the level and the files.
kit_words() { # CRATE
    grep -vxE -e '--target=.*|--sysroot=.*|-march=.*|-fPIC|-O[0-9]|-c|-x|ir|module\.bc|-o|module\.o' "$modules/$1.bc.words"
}

# Compiles a crate's module for one target. The module names x86-64 as its processor in each function, which clang says it ignores;
# whatever else it says is an error.
object() { # TRIPLE CRATE
    words=$(sed -n "s/^$1 \([^#]*\).*/\1/p" "$top/archives/targets")
    # shellcheck disable=SC2046,SC2086 # the words of a target and of the kit are separate words
    "$home/toolchain/bin/clang" $words $(kit_words "$2") -Wno-override-module $more -c -x ir "$modules/$2.bc" -o "$work/$1/$2.o" 2> "$work/said" ||
        { cat "$work/said" >&2; exit 1; }
    if grep -v "is not a recognized processor for this target (ignoring processor)$" "$work/said" >&2; then exit 1; fi
}

# Makes the archive of one target from an object of each crate.
archive() { # TRIPLE
    folder=$top/$place/$1
    mkdir -p "$folder" "$work/$1"
    for crate in $crates; do object "$1" "$crate"; done
    (cd "$work/$1" && "$home/toolchain/bin/llvm-ar" rcs libraftershim.a *.o && mv libraftershim.a "$folder/")
    echo "$place/$1/libraftershim.a"
    say "$1: the proofs end before clang, which is trusted here; the gate runs $(sed -n "s/^$1 .*# //p" "$top/archives/targets")"
}

more=
place=target/staticlib
if [ "${1-}" = --stack-sizes ]; then
    more=-fstack-size-section
    place=target/stack
    shift
fi
case "${1-}" in
    '') set -- "$(uname -m)-unknown-linux-gnu" ;;
    all) set -- $(known targets) ;;
esac
for triple in "$@"; do
    known targets | grep -qx -e "$triple" || { say "there is no target $triple; there are: $(known targets | paste -sd ' ')"; exit 2; }
done
command -v rt > /dev/null || { say 'the command rt is missing: the Rattle toolchain makes the archive'; exit 1; }
home=$(rt doc)
home=${home%/*}
work=$(mktemp -d)
trap 'rm -rf "$work"' EXIT
crates=$(known exporting)
for crate in $crates; do module "$crate"; done
for triple in "$@"; do archive "$triple"; done
