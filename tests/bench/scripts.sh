#!/bin/sh
# tests/bench/scripts.sh [PROGRAM [RUNS]]: the processor time, user and system, that `undorc session` takes
# for each script where it has /bin/sh run `true` for each of 4,096 oneshots, by 1, 4 and 64 workers, the
# scripts included; that as a multiple of `ninja -j` and `make -j` on the same graph, and of `xargs -P`,
# which knows no graph, each with as many jobs and a shell for each; what the run log of `-l` adds; and
# the most memory that the program and ninja take, but for what they start. Each time is the least of
# RUNS (3 without RUNS), since other work disturbs them. graph.sh has the graphs.
set -eu
here=$(realpath "$(dirname "$0")")
# shellcheck source=lib.sh
. "$here/lib.sh"
runs=${2:-3}

# least COMMAND..: the least processor time of some runs, in seconds, and the peak memory in kilobytes
least() {
    for _ in $(seq "$runs"); do
        rm -f live
        /usr/bin/time -f '%U %S %M' -o took "$@" < in > out
        cat took
    done | awk '
        { time = $1 + $2; if (NR == 1 || time < best) best = time; if ($3 > peak) peak = $3 }
        END { print best, peak }'
}

# makefile FILE: the targets of a file for ninja as a file for make, all of them behind `all`; the `;` has
# make start a shell, as the others do
makefile() {
    sed -n 's/^build \([^:]*\):.*/all: \1/p' "$1"
    sed -n 's/^build \([^:]*\): up\(.*\)/\1:\2\n\t@true;/p' "$1"
}

titles 'Graph of 4,096' Workers 'Milliseconds for each script' 'of `ninja -j`' 'of `make -j`' 'of `xargs -P`' \
    'With a run log, of without' Memory 'that of ninja'
for kind in none layers random; do
    graph text $kind | sed 's/ longrun / oneshot /; s/^producer -$/up 5\ntrue\n\ndown -/' > base
    graph ninja $kind > build.ninja
    makefile build.ninja > Makefile
    awk '$1 == "service" { print $2 }' base > names
    for workers in 1 4 64; do
        echo '-u change all' > in
        ours=$(least "$program" session -b base -w $workers)
        tail -n 1 out | grep -q '^ok$'
        logged=$(least "$program" session -b base -w $workers -l live)
        tail -n 1 out | grep -q '^ok$'
        ninja=$(least ninja --quiet -j $workers)
        make=$(least make -s -j $workers all)
        cp names in
        xargs=$(least xargs -n 1 -P $workers /bin/sh -c true)
        echo "$kind $workers $ours $logged $ninja $make $xargs"
    done
done | awk '{
    printf "| %s | %d | %.2f | %.2f | %.2f | %.2f | %.2f | %.0f MB | %.0f MB |\n", $1, $2,
        $3 * 1000 / 4096, $3 / $7, $3 / $9, $3 / $11, $5 / $3, $4 / 1024, $8 / 1024
}'
