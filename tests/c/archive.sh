#!/bin/sh
# Sees what an archive asks for, exports and contains: sh tests/c/archive.sh [TRIPLE...]   (without a word: every target)
# It has an object of each crate in archives/crates and no other. An object asks for no more than copying and clearing of memory, above all
# for no division and for nothing of another object; it exports the functions of its header and no more; it has no divide instruction.
# The objects for x86-64 are the kit's own, byte for byte. Every header has its crate.
set -eu
cd "$(dirname "$0")/../.."
. archives/tools.sh
need llvm llvm-ar llvm-nm llvm-objdump llvm-size
out=target/c
mkdir -p "$out"
# What a surrounding without a C library has to bring, by the names of the two conventions.
memory='^(memcpy|memmove|memset|__aeabi_mem(cpy|move|clr|set)[48]?)$'
# The divide instructions of x86-64 and of its two float units, of Arm, and of RISC-V: after two letters at most they have div or rem in their
# name, and whatever follows says of what kind they are or when they are done, as in udivne.
divide='[[:space:]][a-z]?[a-z]?(div|rem)[a-z0-9.]*([[:space:]]|$)'

fails() {
    echo "archive.sh: $1: $2" >&2
    exit 1
}

# Every header is that of one crate.
headers() {
    ls include/*.h > "$out/headers"
    for crate in $(exporting); do header_of "$crate"; done | sort | diff "$out/headers" - || fails archives/crates 'the headers are not one for each crate'
}

objects() { # TRIPLE ARCHIVE
    for crate in $(exporting); do echo "$crate.o"; done | sort > "$out/named"
    llvm-ar t "$2" | sort | diff "$out/named" - || fails "$1" 'the archive has not one object for each crate'
}

asked() { # OBJECT
    llvm-nm "$out/object.o" | awk '$1 ~ /^[Uwv]$/ { print $2 }' | sort -u > "$out/asked"
    llvm-nm "$out/object.o" | awk 'NF == 3 { print $3 }' | sort -u > "$out/defined"
    comm -23 "$out/asked" "$out/defined" > "$out/missing"
    if grep -Ev "$memory" "$out/missing"; then fails "$1" 'the object asks for these symbols and has them not'; fi
}

exported() { # OBJECT HEADER
    llvm-nm "$out/object.o" | awk 'NF == 3 && $2 ~ /^[A-Zuvw]$/ { print $3 }' | sort -u > "$out/exported"
    grep -o '^uint64_t raftershim_[a-z_]*(' "$2" | sed 's/^uint64_t \(.*\)($/\1/' | sort -u > "$out/declared"
    diff "$out/declared" "$out/exported" || fails "$1" 'the header and the object differ'
}

divides() { # OBJECT
    llvm-objdump -d --no-show-raw-insn "$out/object.o" > "$out/code"
    if grep -F '<unknown>' "$out/code"; then fails "$1" 'the object has code that cannot be read'; fi
    if grep -E "$divide" "$out/code"; then fails "$1" 'the object has a divide instruction'; fi
    grep -cE '^ +[0-9a-f]+:' "$out/code" > "$out/instructions" || fails "$1" 'the object has no code that can be read'
}

# The kit's own archive of a crate is for x86-64.
kits() { # OBJECT CRATE
    llvm-ar p "target/staticlib/lib$2.a" "$2.o" | cmp - "$out/object.o" || fails "$1" "it is not the kit's"
}

object() { # TRIPLE ARCHIVE CRATE
    llvm-ar p "$2" "$3.o" > "$out/object.o"
    asked "$1, $3.o"
    exported "$1, $3.o" "$(header_of "$3")"
    divides "$1, $3.o"
    size=$(llvm-size -A "$out/object.o" | awk '$1 ~ /^\.text/ { sum += $2 } END { print sum }')
    echo "$1, $3.o: $(wc -l < "$out/exported") functions, $size bytes of code, $(cat "$out/instructions") instructions, none divides," \
        "asks for $(paste -sd ' ' "$out/missing" | sed 's/^$/nothing/')"
    [ "$1" != x86_64-unknown-linux-gnu ] || kits "$1, $3.o" "$3"
}

headers
[ $# -gt 0 ] || set -- $(targets)
for triple in "$@"; do
    archive=$(archive_of "$triple")
    objects "$triple" "$archive"
    for crate in $(exporting); do object "$triple" "$archive" "$crate"; done
done
