#!/bin/sh
# How reading and writing the file of a session does, on databases of up to 4,096 services and lines of
# up to 1,024 states: tests/bench/live.sh [PROGRAM]. A session without lines reads the file and writes it
# once. Processor time, the least of three runs, as a multiple of that on the first text, beside the
# length of the text as such a multiple: where both grow alike, time is linear in the text.
set -eu
here=$(realpath "$(dirname "$0")")
# shellcheck source=lib.sh
. "$here/lib.sh"

# database SERVICES: that many oneshots, none needing another
database() {
    awk -v many="$1" 'BEGIN {
        printf "undorc-db 1\nservices %d\n", many
        for (i = 0; i < many; i++) printf "service s%04d oneshot plain 0 0\nneeds\nup 0\n\ndown -\n", i
        printf "bundles 0\nend\n"
    }'
}

# text SERVICES STATES: a line on which a third of the services is up at every other state, and the current
# one is the last
text() {
    awk -v many="$1" -v states="$2" 'BEGIN {
        printf "undorc-live 2\nservices"
        for (i = 0; i < many; i++) printf " s%04d", i
        printf "\nbound 1024\n"
        for (k = 1; k <= states; k++) {
            printf k == states ? "now" : "up"
            if (k % 2) for (i = 0; i < many; i += 3) printf " s%04d", i
            printf "\n"
        }
        printf "end\n"
    }'
}

# spent WORDS..: the processor time of a run, in milliseconds
spent() {
    least=
    for _ in 1 2 3; do
        times=$( { /usr/bin/env time -f '%U %S' "$@" > out < /dev/null; } 2>&1 | tail -n 1)
        took=$(echo "$times" | awk '{ printf "%d", ($1 + $2) * 1000 }')
        if [ -z "$least" ] || [ "$took" -lt "$least" ]; then least=$took; fi
    done
    echo "$least"
}

titles Services States 'Bytes, times the first' 'Time, times the first'
first=
for services in 4096 2048; do
    database "$services" > base
    for states in 1024 256 64; do
        text "$services" "$states" > live
        bytes=$(wc -c < live)
        took=$(spent "$program" session -b base -x none -l live)
        alone=$(spent "$program" session -b base -x none)
        [ -n "$first" ] || first="$bytes"
        echo "$services $states $bytes $first $took $alone"
    done
done | awk '{ time = $5 - $6; if (time < 1) time = 1; if (!base) base = time
    printf "| %d | %d | %.2f | %.2f |\n", $1, $2, $3 / $4, time / base }'
