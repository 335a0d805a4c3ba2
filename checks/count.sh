# Counts checks. It is read by the other scripts of this folder.
passed=0
failed=0

# Tells one check: what it is, and the command that is to succeed.
check() {
    local what=$1
    shift
    if "$@"; then
        passed=$((passed + 1))
        echo "ok: $what"
    else
        failed=$((failed + 1))
        echo "FAILED: $what"
    fi
}

# Prints the counts, and ends with 1 where a check failed.
finish() {
    echo "$passed passed, $failed failed"
    [ "$failed" -eq 0 ]
}
