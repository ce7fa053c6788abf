# Adds up the last lines of tests, `N passed, M failed`, and behind it `, K skipped` where some may be.
# A script that reads this file has `passed`, `failed` and `skipped`.

# adds FILE: adds what the last such line of FILE counts; a file without one is one failure
adds() {
    tallied=$(sed -n 's/^\([0-9]*\) passed, \([0-9]*\) failed\(, \([0-9]*\) skipped\)\{0,1\}$/\1 \2 \4/p' "$1" | tail -n 1)
    if [ -z "$tallied" ]; then
        echo 'FAILED: it did not run to its end' >> "$1"
        tallied='0 1'
    fi
    # shellcheck disable=SC2086
    set -- $tallied
    passed=$((passed + $1))
    failed=$((failed + $2))
    skipped=$((skipped + ${3:-0}))
    [ "$2" -eq 0 ]
}

# tally: the last line, and the status; a test in which nothing was tried has failed
tally() {
    echo "$passed passed, $failed failed, $skipped skipped"
    [ "$failed" -eq 0 ] && [ $((passed + skipped)) -gt 0 ]
}
