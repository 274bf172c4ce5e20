# Makes a Markdown table of lines "work store side rounds instructions calls bytes checksum", where calls and bytes are those of a round.
# Each side has two lines, for few and for many rounds; their difference counts, so what happens once falls out. The loop's own
# instructions, counted with the idle side, are taken off. A work without a peer has "none" in its place. Fails if checksums differ or a
# ratio is above the limit (0: no limit).

{
    if (!($1 in named)) works[++jobs] = $1
    if (!(($1, $2) in calls)) order[++rows] = $1 " " $2
    named[$1] = 1
    which = ($1, $2, $3, "few") in rounds ? "many" : "few"
    rounds[$1, $2, $3, which] = $4
    instructions[$1, $2, $3, which] = $5
    calls[$1, $2] = $6
    bytes[$1, $2] = $7
    checksum[$1, $2, $3, which] = $8
}

function fail(work, store, sentence) {
    print work " " store ": " sentence > "/dev/stderr"
    failed = 1
}

# What a side's rounds between few and many have of a column.
function between(column, work, store, side) {
    return column[work, store, side, "many"] - column[work, store, side, "few"]
}

# Instructions of a side for one round, the loop's own aside.
function cost(work, store, side) {
    return (between(instructions, work, store, side) - between(instructions, work, store, "idle")) / between(rounds, work, store, side)
}

# Whether a work was counted with this side.
function has(work, store, side) {
    return (work, store, side, "many") in rounds
}

# Whether a side answered as the archive did.
function same(work, store, side) {
    return checksum[work, store, "archive", "few"] == checksum[work, store, side, "few"] && \
        checksum[work, store, "archive", "many"] == checksum[work, store, side, "many"]
}

function row(work, store,    n, c, b, a, m, p, peer) {
    n = between(rounds, work, store, "archive")
    c = calls[work, store]
    b = bytes[work, store]
    a = cost(work, store, "archive")
    m = cost(work, store, "model")
    peer = "none | none"
    if (has(work, store, "peer")) {
        p = cost(work, store, "peer")
        peer = sprintf("%.1f | %.2f", p / c, a / p)
        if (!same(work, store, "peer")) fail(work, store, "the answers differ")
    }
    printf "| %s | %d | %d | %d | %.1f | %.1f | %.2f | %s | %.1f | %.1f |\n", \
        work, store, n * c, n * b, a / c, m / c, a / m, peer, a / b, m / b
    if (!same(work, store, "model")) fail(work, store, "the answers differ")
    if (limit > 0 && a > limit * m) fail(work, store, "the ratio is above " limit)
}

# How many percent more a round costs with the largest store than with the smallest.
function growth(work, side) {
    return sprintf("%.2f", 100 * (cost(work, largest, side) / cost(work, smallest, side) - 1)) + 0
}

END {
    print "| Work | Store | Calls | Bytes | Archive per call | Model per call | Ratio to model | Peer per call | Ratio to peer | Archive per byte | Model per byte |"
    print "|---|---|---|---|---|---|---|---|---|---|---|"
    for (i = 1; i <= rows; i++) {
        split(order[i], place, " ")
        row(place[1], place[2])
    }
    print ""
    for (i = 1; i <= jobs; i++) {
        printf "- Growth from store %d to store %d, %s: archive %.2f %%, model %.2f %%", smallest, largest, works[i], \
            growth(works[i], "archive"), growth(works[i], "model")
        if (has(works[i], smallest, "peer")) printf ", peer %.2f %%", growth(works[i], "peer")
        print "."
    }
    exit failed
}
