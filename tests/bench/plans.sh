#!/bin/sh
# tests/bench/plans.sh [PROGRAM [BATCHES]]: how much processor time `undorc plan` and `undorc db check` take on graphs
# of 4,096 services, as multiples of `ninja -n` on the same graph, and the most memory that each of them takes.
# `plan all` raises all services, `plan one` the one that needs most of them, and ninja is asked for the same. Each time is the least of
# BATCHES (5 without BATCHES) of ten runs, since other work disturbs them.
set -eu
here=$(realpath "$(dirname "$0")")
# shellcheck source=lib.sh
. "$here/lib.sh"
batches=${2:-5}

# ten INPUT COMMAND..: the least of so many batches of ten runs
ten() {
    least "$batches" 10 "$@"
}

# line WHAT GRAPH FIGURES FIGURES-OF-NINJA: a line of the table
line() {
    echo "$3 $4" | awk -v what="$1" -v graph="$2" '{
        printf "| %s | %s | %.1f | %.1f MB | %.1f MB |\n", what, graph, $1 / $3, $2 / 1024, $4 / 1024
    }'
}

has_check=
if graph text none 1 | "$program" db check 2> /dev/null; then has_check=1; fi
titles Command Graph 'Time, as a multiple of `ninja -n`' 'Peak memory' 'Peak of ninja'
for kind in none next before fan layers random; do
    graph text $kind > base
    graph ninja $kind > build.ninja
    case $kind in
        next | fan) one=s1000 ;;
        *) one=s5095 ;;
    esac
    all_of_ninja=$(ten /dev/null ninja -n --quiet)
    one_of_ninja=$(ten /dev/null ninja -n --quiet $one)
    line 'plan all' $kind "$(ten base "$program" plan -u all)" "$all_of_ninja"
    line 'plan one' $kind "$(ten base "$program" plan -u $one)" "$one_of_ninja"
    if [ -n "$has_check" ]; then
        line 'db check' $kind "$(ten base "$program" db check)" "$all_of_ninja"
    fi
done
