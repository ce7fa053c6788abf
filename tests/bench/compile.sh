#!/bin/sh
# tests/bench/compile.sh [PROGRAM [ROUNDS]]: how much processor time `undorc compile` takes on 4,096 services as
# directories, as a multiple of `ninja -n` and of `make -n` on the same graph as one file each, and the most memory
# that each of them takes. A round runs each of the three ten times, one after another, and each time is the least of
# ROUNDS rounds (5 without ROUNDS), since other work disturbs them. Then its instructions as a multiple of those of
# plain_compiler.rs on the same directories, which valgrind counts. graph.sh has the graphs.
set -eu
here=$(realpath "$(dirname "$0")")
# shellcheck source=lib.sh
. "$here/lib.sh"
rounds=${2:-5}

# ten WHAT COMMAND..: ten runs, whose processor time in seconds and peak memory in kilobytes go to `took`
ten() {
    what=$1
    shift
    /usr/bin/time -a -f "$what %U %S %M" -o took sh -c '
        out=$1
        shift
        for _ in 1 2 3 4 5 6 7 8 9 10; do "$@" < /dev/null > "$out"; done' ten out "$@"
}

# folders FILE FOLDER: the services of a file for ninja as oneshots in a folder
folders() {
    mkdir "$2"
    sed -n 's/^build \([^:]*\):.*/\1/p' "$1" | (cd "$2" && xargs mkdir)
    sed -n 's/^build \([^:]*\): up/\1/p' "$1" | while read -r name needs; do
        echo oneshot > "$2/$name/type"
        echo true > "$2/$name/up"
        # shellcheck disable=SC2086
        if [ -n "$needs" ]; then printf '%s\n' $needs > "$2/$name/dependencies"; fi
    done
}

# makefile FILE: the targets of a file for ninja as a file for make, all of them behind `all`
makefile() {
    sed -n 's/^build \([^:]*\):.*/all: \1/p' "$1"
    sed -n 's/^build \([^:]*\): up\(.*\)/\1:\2\n\ttrue/p' "$1"
}

# measure KIND WHAT: the line of a graph
measure() {
    graph ninja "$1" > "$1.ninja"
    folders "$1.ninja" "$1"
    makefile "$1.ninja" > "$1.make"
    : > took
    for _ in $(seq "$rounds"); do
        ten undorc "$program" compile "$1"
        ten ninja ninja -n --quiet -f "$1.ninja"
        ten make make -n -f "$1.make" all
    done
    awk -v graph="$2" '
        { took = $2 + $3; if (!($1 in least) || took < least[$1]) least[$1] = took }
        $4 > peak[$1] { peak[$1] = $4 }
        END {
            ours = least["undorc"]
            printf "| %s | %.1f | %.1f |", graph, ours / least["ninja"], ours / least["make"]
            printf " %.1f MB | %.1f MB | %.1f MB |\n", peak["undorc"] / 1024, peak["ninja"] / 1024, peak["make"] / 1024
        }' took
    rm -r "$1" "$1".*
}

# counted KIND: the line of a graph, with instructions
counted() {
    graph ninja "$1" > "$1.ninja"
    folders "$1.ninja" "$1"
    ours=$(count nothing "$program" compile "$1")
    plain=$(count nothing ./plain "$1")
    awk -v graph="$1" -v ours="$ours" -v plain="$plain" '
        BEGIN { printf "| %s | %.2f | %.1f | %.1f |\n", graph, ours / plain, ours / 1000000, plain / 1000000 }'
    rm -r "$1" "$1".*
}

titles Graph 'Times `ninja -n`' 'Times `make -n`' 'Peak memory' 'Peak of ninja' 'Peak of make'
measure none 'none needs another'
measure next 'each needs the next'
measure before 'each needs the one before'
measure fan 'a fan: one needs all others'
measure layers '64 layers of 64, each service needing the whole layer below (258,048 pairs)'
measure random 'random, some four needs each'
echo
rustc --edition 2024 -O -o plain "$here/plain_compiler.rs"
titles 'Graph of 4,096' 'Instructions, times the plain program' 'Millions of instructions' 'of the plain program'
for kind in none next before fan layers random; do
    counted $kind
done
