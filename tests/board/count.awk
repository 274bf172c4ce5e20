# Reads the names of a program, then a trace of its instructions, and says how many a call of each function took while work ran. The words of
# the variable counted are the functions, without the name's first part, raftershim_.

function number(digits,    i, value) {
    value = 0
    for (i = 1; i <= length(digits); i++) value = value * 16 + index("0123456789abcdef", substr(digits, i, 1)) - 1
    return value
}

BEGIN { functions = split(counted, wanted, " ") }

# A name: its place, its length, its kind and the name. The lowest bit of a place says Thumb.
FNR == NR {
    place = number($1) - number($1) % 2
    if ($4 == "work") { first = place; last = place + number($2) }
    for (i = 1; i <= functions; i++) if ($4 == "raftershim_" wanted[i]) named[place] = wanted[i]
    next
}

# An instruction: its place is the second number in the brackets.
/^Trace/ {
    split(substr($0, index($0, "[") + 1), parts, "/")
    place = number(parts[2])
    if (place >= first && place < last) { inside = "" ; worked = 1 ; next }
    if (worked && inside == "" && place in named) { inside = named[place]; calls[inside]++; took = 0 }
    if (inside != "") { sum[inside]++; took++; if (took > most[inside]) most[inside] = took }
}

END {
    for (i = 1; i <= functions; i++) {
        name = wanted[i]
        if (!calls[name]) { print "no call of raftershim_" name " was seen" > "/dev/stderr"; exit 1 }
        printf "raftershim_%s: %.0f instructions on average of %d, %d at most\n", name, sum[name] / calls[name], calls[name], most[name]
    }
}
