# What the measurements share: the program, a folder of their own, graphs, counts and heads of tables. The script that
# reads this file has set `here` to its folder. Its first word is the program; without it, that is the built one.
top=$(realpath "$here/../..")
program=$(realpath "${1:-$top/crates/undorc/out/undorc}")
room=$(mktemp -d)
trap 'rm -rf "$room"' EXIT
cd "$room"
: > nothing

# graph text|ninja KIND [N]: a graph, as graph.sh writes it
graph() {
    sh "$here/graph.sh" "$@"
}

# plain_loop: makes `plain`, the plain loop over services and pairs
plain_loop() {
    cc -O2 -pthread -o plain "$here/plain.c"
}

# count INPUT COMMAND..: the instructions of one run
count() {
    input=$1
    shift
    valgrind --tool=callgrind --callgrind-out-file=/dev/null --log-file=log "$@" < "$input" > out
    sed -n 's/.*Collected : //p' log
}

# peak INPUT COMMAND..: the most memory of one run, in kilobytes
peak() {
    input=$1
    shift
    /usr/bin/time -f '%M' -o took "$@" < "$input" > out
    cat took
}

# least BATCHES TIMES INPUT COMMAND..: the processor time of one run in seconds, the least of so many batches of so many
# runs, and the peak memory in kilobytes. What the last one wrote is left in `out`.
least() {
    batches=$1
    times=$2
    input=$3
    shift 3
    for _ in $(seq "$batches"); do
        /usr/bin/time -f '%U %S %M' -o took sh -ec '
            times=$1
            input=$2
            shift 2
            for _ in $(seq "$times"); do "$@" < "$input" > out; done' times "$times" "$input" "$@"
        cat took
    done | awk -v times="$times" '
        { took = ($1 + $2) / times; if (NR == 1 || took < best) best = took; if ($3 > peak) peak = $3 }
        END { print best, peak }'
}

# titles TITLE..: the first two lines of a table
titles() {
    printf '|'
    printf ' %s |' "$@"
    printf '\n|'
    for _ in "$@"; do printf '%s' '---|'; done
    echo
}
