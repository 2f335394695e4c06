# shellcheck shell=dash
# Checks that are counted, for scripts that source it: `check NAME COMMAND..`, or `passes NAME` and `fails NAME` where a script looks by itself; at the
# end `tell_checks`, which prints `N passed, M failed` and has the status.
passed=0
failed=0

passes() {
    printf 'ok     %s\n' "$1"
    passed=$((passed + 1))
}

fails() {
    printf 'FAILED %s\n' "$1"
    failed=$((failed + 1))
}

check() {
    local name="$1"
    shift
    if "$@"; then passes "$name"; else fails "$name"; fi
}

tell_checks() {
    echo "$passed passed, $failed failed"
    [ "$failed" -eq 0 ]
}
