# Scripts of the gate source this file: it counts what several commands passed and failed.
# shellcheck shell=bash

passed=0
failed=0
# The lines in which the commands told what failed, and why.
failures=()
tells_failure='^(failed: |edit .*: not refused at a goal: |rt: FAILED: )'

# Runs a command, and adds the counts in its last line 'N passed, M failed'. If it prints no such line,
# or fails without counting a failure, that counts as one failure.
count() {
    local said status line
    said=$(mktemp) || exit 1
    "$@" 2>&1 | tee "$said"
    status=${PIPESTATUS[0]}
    line=$(grep -E '^[0-9]+ passed, [0-9]+ failed' "$said" | tail -n 1)
    mapfile -t -O "${#failures[@]}" failures < <(grep -E "$tells_failure" "$said" | sort -u)
    rm -f "$said"
    if [[ $line =~ ^([0-9]+)' passed, '([0-9]+)' failed' ]]; then
        passed=$((passed + BASH_REMATCH[1]))
        failed=$((failed + BASH_REMATCH[2]))
        [ "$status" -eq 0 ] || [ "${BASH_REMATCH[2]}" -gt 0 ] || fail "status $status: $*"
    else
        fail "no count: $*"
    fi
}

# Runs a command, and counts it as one that passed or one that failed, by its status.
count_one() {
    if "$@"; then
        passed=$((passed + 1))
    else
        fail "$*"
    fi
}

# Counts a failure, which the last lines will tell.
fail() {
    failed=$((failed + 1))
    failures+=("failed: $1")
}

# Prints what failed, and the sum, and ends the script.
tell_count() {
    [ "${#failures[@]}" -eq 0 ] || printf '%s\n' "${failures[@]}"
    echo "$passed passed, $failed failed"
    [ "$failed" -eq 0 ]
    exit
}
