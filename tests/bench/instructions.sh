#!/bin/sh
# tests/bench/instructions.sh [PROGRAM [OLD]]: how many instructions `undorc session` takes for an undo or
# redo of all services by one worker, and by four, which is the default; and by one worker for a change
# of all, its undo and its redo. All are multiples of a plain loop over services and pairs (plain.c,
# which writes the same answers), without the reading of the database. Then how an undo or redo by one
# worker grows with the services and with the pairs; `plan` and `db check` beside `ninja -n`, where ninja
# is there (`plan one` raises the service that needs most); and the most memory. With OLD, the program of
# an older commit, its figures stand in front. valgrind counts, so other work disturbs nothing but time;
# which of four workers waits for which differs from run to run.
set -eu
here=$(realpath "$(dirname "$0")")
# shellcheck source=lib.sh
. "$here/lib.sh"
old=${2:+$(realpath "$2")}
plain_loop

# session PROGRAM INPUT: those of a session by one worker
session() {
    count "$2" "$1" session -x none -w 1 -b base
}

# lines PAIRS: a change of all and so many pairs of its undo and redo
lines() {
    echo '-u change all'
    for _ in $(seq "$1"); do printf 'undo\nredo\n'; done
}

lines 0 > change
lines 1 > few
lines 11 > many

# moves PROGRAM: a change of all, the mean of an undo and a redo, and a change with its undo and redo
moves() {
    nothing=$(session "$1" nothing)
    few=$(session "$1" few)
    echo "$(($(session "$1" change) - nothing)) $((($(session "$1" many) - few) / 20)) $((few - nothing))"
}

# crew PROGRAM: the mean of an undo and a redo by four workers
crew() {
    few=$(count few "$1" session -x none -b base)
    echo "$((($(count many "$1" session -x none -b base) - few) / 20))"
}

# loop: the mean of an undo and a redo of the plain loop
loop() {
    few=$(count nothing ./plain base 1)
    echo "$((($(count nothing ./plain base 11) - few) / 20))"
}

titles 'Graph of 4,096' 'Undo or redo' 'by four workers' 'Change, undo and redo' 'Change alone'
for kind in none next before fan layers random; do
    graph text $kind > base
    echo "$kind $(loop) $(moves "$program") $(crew "$program") ${old:+$(moves "$old") $(crew "$old")}"
done | awk '{
    if (NF > 6) printf "| %s | %.2f, %.2f | %.2f, %.2f | %.2f, %.2f | %.2f, %.2f |\n", $1, $8 / $2,
        $4 / $2, $10 / $2, $6 / $2, $9 / 3 / $2, $5 / 3 / $2, $7 / $2, $3 / $2
    else printf "| %s | %.2f | %.2f | %.2f | %.2f |\n", $1, $4 / $2, $6 / $2, $5 / 3 / $2, $3 / $2
}'
echo

titles Services Graph Pairs 'Undo or redo, thousands of instructions' 'Change, undo and redo'
for kind in none random layers; do
    for services in 1024 2048 4096; do
        graph text $kind $services > base
        pairs=$(awk '$1 == "needs" { pairs += NF - 1 } END { print pairs }' base)
        echo "$services $kind $pairs $(moves "$program")"
    done
done | awk '{ printf "| %d | %s | %d | %.0f | %.0f |\n", $1, $2, $3, $5 / 1000, $6 / 1000 }'
echo

if command -v ninja > out; then
    titles 'Graph of 4,096' '`plan all`, as a multiple of `ninja -n`' '`plan one`' '`db check`' Peak \
        'Peak of ninja'
    for kind in none next before fan layers random; do
        graph text $kind > base
        graph ninja $kind > build.ninja
        case $kind in
            next | fan) one=s1000 ;;
            *) one=s5095 ;;
        esac
        echo "$kind $(count base "$program" plan -u all)" \
            "$(count nothing ninja -n --quiet)" \
            "$(count base "$program" plan -u $one)" \
            "$(count nothing ninja -n --quiet $one)" \
            "$(count base "$program" db check)" \
            "$(peak base "$program" plan -u all) $(peak nothing ninja -n --quiet)"
    done | awk '{
        printf "| %s | %.2f | %.2f | %.2f | %.1f MB | %.1f MB |\n", $1, $2 / $3, $4 / $5, $6 / $3,
            $7 / 1024, $8 / 1024
    }'
    echo
fi

titles 'Graph of 4,096' 'Peak of a session with a change of all, its undo and redo'
for kind in none next before fan layers random; do
    graph text $kind > base
    echo "$kind $(peak few "$program" session -x none -w 1 -b base)" \
        "${old:+$(peak few "$old" session -x none -w 1 -b base)}"
done | awk '{
    if (NF > 2) printf "| %s | %.1f MB, %.1f MB |\n", $1, $3 / 1024, $2 / 1024
    else printf "| %s | %.1f MB |\n", $1, $2 / 1024
}'
