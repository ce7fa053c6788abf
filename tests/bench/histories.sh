#!/bin/sh
# What a command costs on a history of 8 databases, beside the same on a live text alone: tests/bench/histories.sh [PROGRAM].
# The databases have 4,096 services and 64 states each, and then 200 services and 1,024 states. Commands start nothing and
# move one service; an undo across a border, and an update, move none. Millions of instructions by valgrind, and processor
# time, the least of three runs.
set -eu
here=$(realpath "$(dirname "$0")")
# shellcheck source=lib.sh
. "$here/lib.sh"

# database SERVICES LIMIT: that many oneshots, none needing another; the first may take so long
database() {
    awk -v many="$1" -v limit="$2" 'BEGIN {
        printf "undorc-db 1\nservices %d\n", many
        for (i = 0; i < many; i++)
            printf "service s%04d oneshot plain %d 0\nneeds\nup 9\necho %04d\ndown -\n", i, i ? 0 : limit, i
        printf "bundles 0\nend\n"
    }'
}

# session SERVICES STATES NOW: a line of an even number of states with a third of the services up, of which the first is down
# in every other state; the first and the last state are the same. The state NOW, from 1, is the current one
session() {
    awk -v many="$1" -v states="$2" -v now="$3" 'BEGIN {
        printf "undorc-live 2\nservices"
        for (i = 0; i < many; i++) printf " s%04d", i
        printf "\nbound 1024\n"
        for (k = 1; k <= states; k++) {
            printf k == now ? "now" : "up"
            is_down = k < states && (k % 2 == 0 || k == states - 1)
            for (i = is_down ? 3 : 0; i < many; i += 3) if (i != 3 || k != states - 1) printf " s%04d", i
            printf "\n"
        }
        printf "end\n"
    }'
}

# history SERVICES STATES NOW: 8 of these, of which the last one is present, and stands on its state NOW
history() {
    printf 'undorc-history 1\nat 7 of 8\n'
    for number in 0 1 2 3 4 5 6 7; do
        now=$2
        [ $number -lt 7 ] || now=$3
        database "$1" $number > base.part
        session "$1" "$2" "$now" > session.part
        printf 'generation stop stop\ndatabase %d\n' "$(wc -c < base.part)"
        cat base.part
        printf 'session %d\n' "$(wc -c < session.part)"
        cat session.part
        echo 'renames 0'
    done
    echo end
}

# costs FILE WORDS..: the instructions of a command on a copy of FILE, in millions, and its time, in milliseconds
costs() {
    begin=$1
    shift
    cp "$begin" live
    instructions=$(count nothing "$program" "$@" -l live)
    time=
    for _ in 1 2 3; do
        cp "$begin" live
        took=$(least 1 1 nothing "$program" "$@" -l live | awk '{ printf "%d", $1 * 1000 }')
        if [ -z "$time" ] || [ "$took" -lt "$time" ]; then time=$took; fi
    done
    echo "$instructions $time" | awk '{ printf " %.0f, %d ms |", $1 / 1000000, $2 }'
}

chmod 700 .
titles FILE Bytes '`live`' 'A change of one' 'An update' 'An undo across a border'
for size in '4096 64' '200 1024'; do
    services=${size% *} states=${size#* }
    database "$services" 7 > base
    database "$services" 8 > other
    session "$services" "$states" "$states" > plain.file
    history "$services" "$states" "$states" > history.file
    history "$services" "$states" 1 > border.file
    for file in plain history; do
        printf '| %s, %d services, %d states |' "$file" "$services" "$states"
        printf ' %.1f MB |' "$(wc -c < $file.file | awk '{ print $1 / 1000000 }')"
        costs $file.file live -b base
        costs $file.file change -b base -x none s0001
        costs $file.file update -b base -B other -x none
        if [ $file = history ]; then costs border.file undo -b base -x none; else printf ' |'; fi
        echo
    done
done
