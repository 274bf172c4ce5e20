# For bash scripts, which source it: runs checks, counts them, and runs some beside others. Any failure makes `counted` fail.
passed=0
failed=0
kept=$(mktemp -d)
trap 'rm -rf "$kept"' EXIT

# Runs one check, given its name and its command, and counts it.
check() { # NAME COMMAND...
    local name=$1
    shift
    printf '== %s\n' "$name"
    if "$@"; then
        passed=$((passed + 1))
    else
        failed=$((failed + 1))
        printf '== FAILED: %s\n' "$name"
    fi
}

# Begins the checks of a function beside what follows. Their count is kept when the function is through.
beside() { # FUNCTION
    (
        passed=0
        failed=0
        "$1"
        printf '%d %d\n' "$passed" "$failed" > "$kept/count"
    ) > "$kept/said" 2>&1 &
}

# Waits for them, shows what they said and adds their count. Checks that did not come to their end are a failure.
joined() {
    local more bad
    wait
    cat "$kept/said"
    if read -r more bad < "$kept/count"; then
        passed=$((passed + more))
        failed=$((failed + bad))
    else
        failed=$((failed + 1))
        printf '== FAILED: checks that ran beside others did not come to their end\n'
    fi
}

# Says how many passed and failed; fails if one failed.
counted() {
    printf '%d passed, %d failed\n' "$passed" "$failed"
    [ "$failed" -eq 0 ]
}
