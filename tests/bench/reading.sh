#!/bin/sh
# tests/bench/reading.sh [PROGRAM [OLD]]: instructions of `undorc db check` as multiples of those of a plain
# program (plain_reader.rs) on the same texts; of `plan` of all services as multiples of those of
# `ninja -n`, where ninja is there; instructions and peak memory of reading a live text of 4,096
# services with 1,024 states; and instructions of a one-shot change on the file of a session with 1,024
# states of 256 services. With OLD, a program of an older commit, its figures stand in front.
# valgrind counts, so other work disturbs nothing but time.
set -eu
here=$(realpath "$(dirname "$0")")
# shellcheck source=lib.sh
. "$here/lib.sh"
old=${2:+$(realpath "$2")}
rustc --edition 2024 -O -o plain "$here/plain_reader.rs"

# rows: a title and figures with a plain one behind them, as multiples of that one
rows() {
    awk '{
        printf "| %s |", $1
        for (i = 2; i < NF; i++) printf "%s %.2f", (i > 2 ? "," : ""), $i / $NF
        print " |"
    }'
}

titles 'Graph of 4,096' '`db check`, times the plain program'
for kind in none next shuffled fan layers random; do
    graph text $kind > base
    echo "$kind ${old:+$(count base "$old" db check)} $(count base "$program" db check)" \
        "$(count base ./plain)"
done | rows
echo

if command -v ninja > out; then
    titles 'Graph of 4,096' '`plan` of all, times `ninja -n`'
    for kind in none next shuffled fan layers random; do
        graph text $kind > base
        graph ninja $kind > build.ninja
        echo "$kind ${old:+$(count base "$old" plan -u all)} $(count base "$program" plan -u all)" \
            "$(count base ninja -n --quiet)"
    done | rows
    echo
fi

# live SERVICES STATES: at each state all services but one are up, another one than before; the current one is the last
live() {
    awk -v many="$1" -v states="$2" 'BEGIN {
        printf "undorc-live 2\nservices"
        for (i = 0; i < many; i++) printf " s%d", 1000 + i
        printf "\nbound %d\n", states
        for (k = 1; k <= states; k++) {
            printf k == states ? "now" : "up"
            for (i = 0; i < many; i++) if (i != k % many) printf " s%d", 1000 + i
            printf "\n"
        }
        printf "end\n"
    }'
}

# reading PROGRAM: the instructions of reading the live text and its database, and the most memory
reading() {
    echo "$(count base "$1" live -b base -l kept) $(peak base "$1" live -b base -l kept)"
}

graph text none > base
live 4096 1024 > kept
titles 'Live text of 4,096 services, 1,024 states' 'Instructions' 'Peak'
for each in $old $program; do
    reading "$each" | awk -v of="${each#"$top"/}" '{
        printf "| %s | %.0f million | %.0f MB |\n", of, $1 / 1000000, $2 / 1024
    }'
done
echo

# changing PROGRAM: the instructions of a change of one service, from the text to the text that replaces it
changing() {
    cp kept changed
    count nothing "$1" change -x none -b base -l changed -d s1001
}

graph text none 256 > base
live 256 1024 > kept
titles 'A change of one, with 1,024 states of 256 services' 'Instructions'
for each in $old $program; do
    changing "$each" | awk -v of="${each#"$top"/}" '{ printf "| %s | %.0f million |\n", of, $1 / 1000000 }'
done
