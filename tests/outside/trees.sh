# Definitions of services in a folder, and sessions on them; and tests of what these leave. Topics
# read this file.

# begin_tree: no definitions yet. oneshot NAME TEXT [NEED..], longrun NAME [NEED..]: one more. down NAME
# TEXT, limit NAME MILLISECONDS: more of one.
begin_tree() {
    rm -rf tree
    mkdir tree
}
definition() {
    mkdir "tree/$2"
    echo "$1" > "tree/$2/type"
    file=tree/$2/dependencies
    shift 2
    for need; do echo "$need"; done > "$file"
}
oneshot() {
    name=$1 text=$2
    shift 2
    definition oneshot "$name" "$@"
    printf '%s\n' "$text" > "tree/$name/up"
}
longrun() {
    definition longrun "$@"
    : > "tree/$1/run"
}
down() {
    printf '%s\n' "$2" > "tree/$1/down"
}
limit() {
    echo "$2" > "tree/$1/timeout-up"
    echo "$2" > "tree/$1/timeout-down"
}

# session ANSWERS TOLD LINES WORDS..: a session on these definitions
session() {
    writes=$1 tells=$2 reads=$3
    shift 3
    "$program" compile tree > made
    expect 0 "$writes" "$tells" "$reads" session -b made "$@"
}

# tells ANSWERS EVENTS LINES WORDS..: such a session with -P, and what it reports but for the times
tells() {
    wants "$1" "$2"
    printf '%b' "$3" > in
    shift 3
    "$program" compile tree > made
    runs session -b made -P "$@"
    timeless err
    # What setsid says of a program that can't be started.
    sed -i '/^setsid: /d' err
    judge "undorc session -b made -P $*" 0
}

# same WHAT: what a script left, in the files `left` and `left.wanted`
same() {
    passed=$((passed + 1))
    if ! cmp -s left left.wanted; then
        passed=$((passed - 1))
        failed=$((failed + 1))
        echo "FAILED: $1:"
        diff -a -u left.wanted left | sed -e 1,2d -e 40q || true
    fi
}
# holds WHAT TEST..: a test of the shell
holds() {
    what=$1
    shift
    passed=$((passed + 1))
    if ! "$@"; then
        passed=$((passed - 1))
        failed=$((failed + 1))
        echo "FAILED: $what"
    fi
}
