#!/bin/sh
# tests/bench/changes.sh [PROGRAM [OLD [RUNS]]]: how much processor time `undorc session` takes on 4,096
# services for a change of all, its undo and its redo, by one worker, beside a plain loop over
# services and pairs, and the same loop in a thread that takes and ends each service under a lock
# (plain.c, which writes the same answers); the same by 4 and by 64 workers, beside one; for
# reading their database, beside that loop's reading and `wc`; for both together, the whole program
# beside the whole loop, and beside `ninja`, which starts `true` for each service where a session
# starts nothing; and the most memory that they take, with that of OLD, the program of an older
# commit, where it is given. Each time is the least of RUNS (5 without RUNS), since other work
# disturbs them. graph.sh has the graphs. Runs have a queue since the first commit of
# crates/rc_core/src/ready.rt.
set -eu
here=$(realpath "$(dirname "$0")")
# shellcheck source=lib.sh
. "$here/lib.sh"
old=${2:+$(realpath "$2")}
runs=${3:-5}
pairs=500
plain_loop

# session PROGRAM INPUT RUNS TIMES [WORKERS]: so many sessions on the graph
session() {
    least "$3" "$4" "$2" "$1" session -x none -w "${5:-1}" -b base
}

echo '-u change all' > change
printf '%s\n' '-u change all' undo redo > few
{ cat change; for _ in $(seq $pairs); do printf 'undo\nredo\n'; done; } > lines
for kind in none next before fan layers random; do
    graph text $kind > base
    graph ninja $kind > build.ninja
    "$program" session -x none -b base < lines > answers
    ./plain base $pairs | cmp - answers >&2
    ./plain base $pairs kept | cmp - answers >&2
    echo "$kind $(session "$program" nothing "$runs" 50) $(session "$program" change "$runs" 50)" \
        "$(session "$program" lines "$runs" 1) $(session "$program" few "$runs" 50)" \
        "$(least "$runs" 50 /dev/null ./plain base 0)" \
        "$(least "$runs" 1 /dev/null ./plain base $pairs)" \
        "$(least "$runs" 1 /dev/null ./plain base $pairs kept)" \
        "$(session "$program" lines "$runs" 1 4) $(session "$program" lines "$runs" 1 64)" \
        "$(least "$runs" 50 base wc)" \
        "$(least "$runs" 10 /dev/null ninja -n --quiet)" \
        "$(least 1 1 /dev/null ninja --quiet)" \
        "$(least "$runs" 50 /dev/null ./plain base 1)" \
        "${old:+$(session "$old" few 1 1)}"
done > figures

# table ROW TITLE..: the figures of each graph, as awk prints them
table() {
    row=$1
    shift
    titles 'Graph of 4,096' "$@"
    awk -v moves=$((2 * pairs)) "$row" figures
    echo
}

# Of what was measured, time and memory each: a session that reads alone (2), with a change of all (4),
# with its undos and redos (6), with one of each (8); the loop that changes once (10), with its undos
# and redos (12), and in a thread that keeps (14); the undos and redos by 4 workers (16) and by 64 (18);
# wc (20), ninja -n (22), ninja (24); the loop with one of each (26); and OLD with one of each (28).
table '{ printf "| %s | %.2f |\n", $1, $8 / $26 }' \
    'A session with a change of all, its undo and its redo, as a multiple of the loop that reads and does the same'
table '{ printf "| %s | %.2f | %.2f | %.2f |\n", $1, ($6 - $4) / ($12 - $10), ($6 - $4) / ($14 - $10), ($6 - $4) / moves / $2 }' \
    'An undo or redo of all, as a multiple of the loop' 'of the loop in a thread that keeps' 'of reading the database'
table '{ printf "| %s | %.2f | %.2f |\n", $1, ($16 - $4) / ($6 - $4), ($18 - $4) / ($6 - $4) }' \
    'An undo or redo of all by 4 workers, as a multiple of that by one' 'by 64'
table '{ printf "| %s | %.2f | %.2f |\n", $1, $2 / $10, $2 / $20 }' \
    'Reading the database, as a multiple of the reading of the loop' 'of `wc`'
table '{ printf "| %s | %.2f | %.4f |\n", $1, $4 / $22, $4 / $24 }' \
    'A session with a change of all, as a multiple of `ninja -n`' 'of `ninja`, which starts `true` for each'
table '{ old = "-"; if (NF > 27) old = sprintf("%.1f MB", $29 / 1024); printf "| %s | %.1f MB | %s |\n", $1, $9 / 1024, old }' \
    'Peak of a session with a change of all, its undo and redo' 'Peak of OLD'
