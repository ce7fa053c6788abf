#!/bin/sh
# tests/bench/lines.sh [PROGRAM]: how many instructions `undorc session` takes by one worker for a line that
# changes one of 4,096 services, without the reading of the database, beside a plain program that
# follows what the service needs or what needs it (plain.c, which writes the same answers): where
# all others are up, and where none is; and how many `undorc replay` takes for each event of a change of
# all, where the events take services from the first to the last and the other way round. PROGRAM is
# crates/undorc/out/undorc without it. valgrind counts, so other work disturbs nothing but time.
set -eu
here=$(realpath "$(dirname "$0")")
# shellcheck source=lib.sh
. "$here/lib.sh"
one=s5095
plain_loop

# lines FIRST TURNS: a first line, and so many pairs of a raise and a lowering of one service
lines() {
    echo "$1"
    echo "-D change $one"
    for _ in $(seq "$2"); do printf '%s\n' "-u change $one" "-D change $one"; done
}

lines '-u change all' 1 > few
lines '-u change all' 11 > many
lines "-u change $one" 1 > few_alone
lines "-u change $one" 11 > many_alone

# session INPUT MORE: the mean of a line, from two sessions of which one has 20 lines more
session() {
    fewer=$(count "$1" "$program" session -x none -w 1 -b base)
    echo "$((($(count "$2" "$program" session -x none -w 1 -b base) - fewer) / 20))"
}

# loop: the mean of a line of the plain program
loop() {
    fewer=$(count few ./plain base 1 one $one)
    echo "$((($(count few ./plain base 11 one $one) - fewer) / 20))"
}

# script WAY SERVICES: a change of all of so many services by one worker, its events in this order
script() {
    echo '-u change all'
    case $1 in
        up) seq "$((1000))" "$((999 + $2))" ;;
        *) seq "$((999 + $2))" -1 1000 ;;
    esac | while read -r number; do printf 'take 1 s%s\ndone 1 s%s ok\n' "$number" "$number"; done
}

titles 'Graph of 4,096' 'A line that changes one, all others up' 'as a multiple of the loop' 'none else up'
for kind in none random layers; do
    graph text $kind > base
    "$program" session -x none -w 1 -b base < many | tail -n +3 > answers
    ./plain base 11 one $one | cmp - answers >&2
    echo "$kind $(session few many) $(loop) $(session few_alone many_alone)"
done | awk '{ printf "| %s | %d | %.2f | %d |\n", $1, $2, $2 / $3, $4 }'
echo

titles Services 'Instructions of `replay` for each event, from the first service on' 'from the last on'
for services in 1024 2048 4096; do
    graph text none $services > base
    alone=$(count nothing "$program" replay -b base)
    for way in up down; do
        script $way $services > events
        echo "$((($(count events "$program" replay -b base) - alone) / 2 / services))"
    done | tr '\n' ' ' | sed "s/^/$services /"
    echo
done | awk '{ printf "| %d | %d | %d |\n", $1, $2, $3 }'
