# What the test scripts share: a line for each check, and their number at the end. Sourced, not run.
passed=0
failed=0

# pass NAME
pass() {
    passed=$((passed + 1))
    echo "ok $1"
}

# fail NAME WHY..
fail() {
    failed=$((failed + 1))
    echo "FAILED $1: ${*:2}"
}

# finish: the last line, and the exit status
finish() {
    echo "$passed passed, $failed failed"
    [ "$failed" -eq 0 ]
    exit
}
