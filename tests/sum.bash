# Read by the scripts whose last line is 'N passed, M failed': runs their parts and adds up what these end with.
log=$(mktemp) || exit 2
trap 'rm -f "$log"' EXIT
passed=0 failed=0

# Runs one part, shows what it prints, and adds up its last line. A part that ends otherwise counts as failed.
part() {
    "$@" 2>&1 | tee "$log"
    status=${PIPESTATUS[0]}
    if [[ $(tail -n 1 "$log") =~ ^([0-9]+)\ passed,\ ([0-9]+)\ failed$ ]]; then
        passed=$((passed + BASH_REMATCH[1])) failed=$((failed + BASH_REMATCH[2]))
        [ "$status" -eq 0 ] || [ "${BASH_REMATCH[2]}" -gt 0 ] || failed=$((failed + 1))
    else
        echo "'$*' did not come to its last line (exit status $status)"
        failed=$((failed + 1))
    fi
}

# The last line; the exit status is 0 only where nothing failed.
sum_up() {
    echo "$passed passed, $failed failed"
    [ "$failed" -eq 0 ]
}
