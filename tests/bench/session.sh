#!/bin/sh
# tests/bench/session.sh [PROGRAM [RUNS]]: how the processor time of a line of `undorc session` grows: with the lines
# before it, with the journal, and with the database. All figures are ratios. Each time is the least of RUNS (5 without
# RUNS), since other work disturbs them. graph.sh has the graphs.
set -eu
here=$(realpath "$(dirname "$0")")
# shellcheck source=lib.sh
. "$here/lib.sh"
runs=${2:-5}

# mix COUNT: lines that go on and back, on 200 services: five states more for each ten lines
mix() {
    awk -v count="$1" '
        function name(i) { return "s" (1000 + i % 200) }
        BEGIN {
            for (i = 0; i < count; i++) {
                round = int(i / 10)
                if (i % 10 == 0) print "-u change " name(round * 7)
                if (i % 10 == 1) print "-D change " name(round * 7)
                if (i % 10 == 2) print "undo"
                if (i % 10 == 3) print "redo"
                if (i % 10 == 4) print "add -f b" (round % 20) " " name(round) " " name(round + 1) " " name(round + 2)
                if (i % 10 == 5) print "-u change " name(round * 11) " b" (round % 20)
                if (i % 10 == 6) print "undo"
                if (i % 10 == 7) print "-pu change " name(round * 13)
                if (i % 10 == 8) print "-d dry " name(round * 13)
                if (i % 10 == 9) print "-Da change"
            }
        }'
}

# line WAY NAME COUNT WAY NAME..: the two lines, one after the other, COUNT times over
pairs() {
    awk -v count="$1" -v first="$2" -v second="$3" 'BEGIN { for (i = 0; i < count; i++) print first "\n" second }'
}

# took TIMES BASE LINES: the least processor time of so many sessions, in seconds
took() {
    for _ in $(seq "$runs"); do
        /usr/bin/time -f '%U %S' -o took sh -ec '
            for _ in $(seq "$1"); do "$2" session -x none -n 100000 -b "$3" < "$4" > "$5"; done' \
            times "$1" "$program" "$2" "$3" out
        tail -n 1 took
    done | awk '{ took = $1 + $2; if (NR == 1 || took < best) best = took } END { print best }'
}

graph text random 200 > small

titles Lines States 'Time a line, as a multiple of that of 1,000 lines'
for count in 1000 2000 4000 8000 10000 16000 32000; do
    mix $count > lines
    times=$((64000 / count))
    all=$(took $times small lines)
    none=$(took $times small nothing)
    states=$({ cat lines; echo journal; } | "$program" session -x none -n 100000 -b small | sed -n 's/^at .* of //p')
    echo "$count $states $all $none $times"
done | awk '{
    each = ($3 - $4) / $5 / $1
    if (NR == 1) unit = each
    printf "| %d | %d | %.2f |\n", $1, $2, each / unit
}'

# behind STATES COUNT FIRST SECOND: the time of one of these lines behind so many states, in microseconds. What the second
# line undoes, or what shows alone, leaves their number as it is.
behind() {
    pairs $(($1 / 2)) '-u change s1000' '-D change s1000' > front
    { cat front; pairs "$2" "$3" "$4"; } > lines
    echo "$(took 1 small lines) $(took 1 small front) $2" |
        awk '{ print ($1 - $2) / $3 * 500000 }'
}

# grown FIRST SECOND FEW-STATES MANY-STATES: a line of the table, of so many pairs behind few states and behind many
grown() {
    echo "$(behind 100 "$3" "$1" "$2") $(behind 10000 "$4" "$1" "$2")" |
        awk -v first="$1" -v second="$2" '{ printf "| `%s`, `%s` | %.2f |\n", first, second, $2 / $1 }'
}

echo
titles Lines 'Time behind 10,000 states, as a multiple of that behind 100'
grown '-u change s1000' undo 20000 20000
grown undo redo 20000 20000
grown 'add -f b s1000' undo 20000 20000
grown 'dry all' live 20000 20000
grown journal journal 2000 20

# moved GRAPH NAME COUNT: the times of so many pairs of a change of this name up and down, of a change and so many pairs of
# its undo and redo, and of that change alone
moved() {
    pairs "$3" "-u change $2" "-D change $2" > lines
    changes=$(took 1 "$1" lines)
    echo "-u change $2" > front
    { cat front; pairs "$3" undo redo; } > lines
    echo "$changes $(took 1 "$1" lines) $(took 1 "$1" front) $3"
}

echo
titles 'Graph of 4,096' 'A change of one' 'An undo or redo of it' 'A change of all' 'An undo or redo of it'
for kind in none next before fan layers random; do
    graph text $kind > "$kind"
    one=$(awk '/^service/ { name = $2 } /^needs$/ { print name; exit }' "$kind")
    echo "$kind $(took 10 "$kind" nothing) $(moved $kind "$one" 500) $(moved $kind all 5)"
done | awk '{
    read = $2 / 10
    printf "| %s | %.3f | %.3f | %.2f | %.2f |\n", $1, ($3 - read) / 2 / $6 / read, ($4 - $5) / 2 / $6 / read,
        ($7 - read) / 2 / $10 / read, ($8 - $9) / 2 / $10 / read
}'
