#!/bin/sh
# How each command does at the bound of its input: tests/bench/bounds.sh [PROGRAM]. Of the greatest input
# and of one half as large, how many times the processor time and the peak memory of the half the whole
# takes, the least of three runs; twice is linear. And the peak memory as a multiple of the bytes that are
# read.
set -eu
here=$(realpath "$(dirname "$0")")
# shellcheck source=lib.sh
. "$here/lib.sh"
cp "$top/docs/samples/sample.txt" base

# bundles MANY: 4,096 services, and so many bundles of them all
bundles() {
    awk -v many="$1" 'BEGIN {
        print "undorc-db 1\nservices 4096"
        for (i = 1000; i < 5096; i++) {
            print "service s" i " longrun plain 0 0\nneeds\nproducer -"
            names = names " s" i
        }
        print "bundles " many
        for (i = 1000; i < 1000 + many; i++) print "bundle b" i names
        print "end"
    }'
}

# folders MANY: so many services as directories, each of which needs the one before it
folders() {
    mkdir "$1.tree"
    for i in $(seq 1000 $((999 + $1))); do
        mkdir "$1.tree/s$i"
        echo oneshot > "$1.tree/s$i/type"
        echo true > "$1.tree/s$i/up"
        [ "$i" -eq 1000 ] || echo "s$((i - 1))" > "$1.tree/s$i/dependencies"
    done
}

# spent WORDS..: the processor time of a run on the file `in`, in milliseconds, and its peak in kB
spent() {
    least='' peak=''
    for _ in 1 2 3; do
        /usr/bin/time -f '%U %S %M' -o took "$@" < in > out 2> err || true
        took=$(tail -n 1 took | awk '{ printf "%d %d", ($1 + $2) * 1000, $3 }')
        if [ -z "$least" ] || [ "${took% *}" -lt "$least" ]; then least=${took% *}; fi
        if [ -z "$peak" ] || [ "${took#* }" -lt "$peak" ]; then peak=${took#* }; fi
    done
    echo "$least $peak"
}

# row WHAT: what the files `half` and `whole` say of it, as `spent` does, and `bytes`
row() {
    echo "$(cat half) $(cat whole) $bytes" | awk -v "what=$1" '{
        printf "| %s | %.1f | %.1f | %.1f |\n", what, $3 / ($1 ? $1 : 1), $4 / $2, $4 * 1024 / $5
    }'
}

# filled MOST LINE: this line, as often as it has room in one byte less
filled() {
    yes "$2" 2> /dev/null | head -c $((($1 - 1) / (${#2} + 1) * (${#2} + 1)))
}

# on WHAT LINE WORDS..: a command on inputs of this line
on() {
    what=$1 line=$2
    shift 2
    filled 8388608 "$line" > in
    spent "$program" "$@" > half
    filled 16777216 "$line" > in
    bytes=$(wc -c < in)
    spent "$program" "$@" > whole
    row "$what"
}

titles 'Command, and what is at its bound' 'Time, times half the input' 'Peak memory, times half the input' \
    'Peak memory, times the bytes'
: > in
for size in 2048 4096; do bundles "$size" > "$size.db"; done
spent "$program" db -b 2048.db contents b1000 > half
spent "$program" db -b 4096.db contents b1000 > whole
bytes=$(wc -c < 4096.db)
row '`db -b`: 4,096 bundles of 4,096 services'
rm 2048.db 4096.db
for size in 2048 4096; do folders "$size"; done
spent "$program" compile 2048.tree > half
spent "$program" compile 4096.tree > whole
bytes=$(wc -c < out)
row '`compile`: 4,096 services, to the bytes written'
on '`plan -b`: 16,777,216 bytes of names that are up' log plan -b base web
on '`session -b`: the same of comments' '# a comment' session -b base -x none
on '`session -b`: the same of `live`' live session -b base -x none
on '`replay -b`: the same of undos' undo replay -b base
