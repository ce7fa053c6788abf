#!/bin/sh
# The calls that the built program scenarios makes where it is given a word, with each growth refused in turn,
# and each start of a thread: tests/outside/growths.sh PROGRAM. growths.out is what it writes. growths.txt names
# each call with the number of its growths, and of the threads that it starts; `again` stands behind those
# that a call asks for again, for less, where they alone are refused. A call of which another one is refused
# tells that, and all is as before; where the last are for the answer to what is done by then, all is as
# after it. The last line is 'N passed, M failed, K skipped', and the status is 0 where none failed.
set -eu
here=$(realpath "$(dirname "$0")")
program=$(realpath "$1")
. "$here/../lib/library.sh"
whole=$here/growths.out
preloads refuse
cp -r "$top/crates/scenarios/data/." .
export GROWTH=0 GROWTHS=0 THREAD=0 MARKED=1 COUNTS=counts

# counted: a run; `out` is what it wrote, and `counts` has a line for each call.
counted() {
    : > counts
    echo 0 > status
    LD_PRELOAD="$preload" "$program" growths < /dev/null > out 2> err || echo $? > status
}

# Nothing is refused: the calls as they are stored, and how often each grows.
counted
cp "$whole" out.wanted
: > err.wanted
judge 'the calls, with nothing refused' 0
awk 'NR == FNR { grown[FNR] = $1; started[FNR] = $2; next }
    {
        many = split($0, calls, "; ")
        for (i = 1; i <= many; i++) {
            sub(/: [^:]*$/, "", calls[i])
            place++
            printf "%s%s: %s", (i > 1 ? "; " : ""), calls[i], grown[place]
            if (started[place]) printf " %s threads", started[place]
        }
        print ""
    }
    END { if (place != NR - FNR) print "the counts are of other calls" }' counts out > made
cp made out
sed -e 's/, the last [0-9]* for its answer//' -e 's/, [0-9 ]* again//g' "$here/growths.txt" > out.wanted
judge 'the number of growths of each call' 0

# The greatest number of growths, and of threads.
growths=$(sort -n counts | tail -n 1)
threads=$(cut -d ' ' -f 2 counts | sort -n | tail -n 1)
for way in GROWTHS GROWTH THREAD; do
    most=${growths% *}
    [ "$way" != THREAD ] || most=$threads
    number=0
    while [ "$number" -le "$most" ]; do
        number=$((number + 1))
        eval "$way=$number"
        counted
        awk -v "way=$way" -v "n=$number" -f "$here/growths.awk" "$here/growths.txt" "$whole" out > told
        mv told out
        : > out.wanted
        judge "the calls, $way $number" 0
    done
    eval "$way=0"
done
tally
