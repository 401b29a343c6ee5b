# Cases of a program as a process, counted as passed and failed. A check sources it. The programs are the proved
# ones alone.
export PROVED_ONLY=1
passed=0
failed=0

# Judges a case by what it had and was to have.
judge() {
    if [[ $2 == "$3" ]]; then
        passed=$((passed + 1))
    else
        failed=$((failed + 1))
        printf '%s: %q instead of %q\n' "$1" "$2" "$3"
    fi
}

# The status of a command, and what it says on standard error.
said() {
    local errors
    errors=$("$@" 2>&1 >/dev/null)
    printf '%d %s' $? "$errors"
}

# Prints the counts; the status is that of the check.
counted() {
    printf '%d passed, %d failed\n' "$passed" "$failed"
    [[ $failed -eq 0 ]]
}
