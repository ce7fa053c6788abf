# What the tests of the built program share: a folder of their own, texts, runs, and what is wanted of them. The script that
# reads this file has set `here` to a folder in tests and `program` to the built program's path.
top=$(realpath "$here/../..")
samples=$top/docs/samples
room=$(mktemp -d)
trap 'rm -rf "$room"' EXIT
trap 'exit 143' TERM
cd "$room"
passed=0
failed=0
skipped=0
patience=30
# The defaults of whoever runs the tests are none of theirs.
unset UNDORC_DB UNDORC_LIVE UNDORC_RUNNER UNDORC_CONTROLLER UNDORC_OUTPUT
# shellcheck source=tally.sh
. "$top/tests/lib/tally.sh"

# Texts are written as printf's %b reads them, each on one line.
sample=$(sed 's/$/\\n/' "$samples/sample.txt" | tr -d '\n')
first='undorc-db 1\n'
none="${first}services 0\nbundles 0\nend\n"
one="${first}services 1\n"
last='bundles 0\nend\n'
strange=$(printf '\377')

# with OLD NEW: the sample with other words in one place.
with() {
    printf '%s' "$sample" | sed "s/$1/$2/"
}

# firsts FILE: what was told, without the lines that stand after a fault or after the refusal of a name, and help; they
# begin with two spaces; and without what root is told of links.
firsts() {
    sed -e '/ is a link out of its source, to /d' -e '/^  nothing is named /d' -e '/^  options stand /d' -e '/^  no change is /d' -e '/^  -p goes /d' \
        -e '/^  an\{0,1\} [a-z]* has this name[,;] /d' -e '/^  no bundle has this name/d' \
        -e '/^undorc: /,$ { /^  /d; }' "$1"
}

# unreported FILE: it without what a one-shot command reports of transitions
unreported() {
    sed '/^undorc: *[0-9]*\.[0-9][0-9][0-9] s  /d' "$1"
}

# judge WHAT STATUS: the files `status`, `out` and `err` against what is wanted, without what helps after a fault, and
# without reports where none are wanted.
judge() {
    read -r ended < status
    firsts err > err.firsts
    if unreported err.wanted | cmp -s - err.wanted; then
        unreported err.firsts > err
    else
        mv err.firsts err
    fi
    if [ "$ended" -eq "$2" ] && cmp -s out out.wanted && cmp -s err err.wanted; then
        passed=$((passed + 1))
        return
    fi
    failed=$((failed + 1))
    echo "FAILED: $1: status $ended, wanted $2; standard output, and standard error (- wanted, + told):"
    for stream in out err; do
        diff -a -u "$stream.wanted" "$stream" | sed -e 1,2d -e 40q || true
    done
}

# wants OUTPUT FAULT: what is wanted on standard output and standard error.
wants() {
    printf '%b' "$1" > out.wanted
    printf '%b' "$2" > err.wanted
}

# runs WORDS..: a run on the file `in`.
runs() {
    echo 0 > status
    "$program" "$@" < in > out 2> err || echo $? > status
}

# expect STATUS OUTPUT FAULT INPUT WORDS..: one run, judged.
expect() {
    wanted=$1
    wants "$2" "$3"
    printf '%b' "$4" > in
    shift 4
    runs "$@"
    judge "undorc $*" "$wanted"
}

# A wrong command line: it ends with 100, something is told, nothing written, and nothing read.
wrong() {
    printf '%b' "$sample" > in
    echo 0 > status
    { "$program" "$@" > out 2> err || echo $? > status; cat > rest; } < in
    if cmp -s in rest && [ -s err ]; then
        cp err err.wanted
    else
        echo 'a line on standard error, and all of the input left' > err.wanted
    fi
    : > out.wanted
    judge "undorc $*" 100
}

# Help that is asked for: it is printed on standard output, with the status of a call that does nothing, and nothing is read.
prints_help() {
    printf '%b' "$sample" > in
    echo 0 > status
    { "$program" "$@" > out 2> err || echo $? > status; cat > rest; } < in
    if cmp -s in rest && grep -q '^Usage: undorc' out; then
        cp out out.wanted
    else
        echo 'help on standard output, and all of the input left' > out.wanted
    fi
    : > err.wanted
    judge "undorc $*" 100
    cp out err
}

# What is told of a wrong command line, or the help that was asked for, has this line.
says() {
    passed=$((passed + 1))
    if ! grep -q -e "$1" err; then
        passed=$((passed - 1))
        failed=$((failed + 1))
        echo "FAILED: no line of the message is like '$1':"
        cat err
    fi
}

# begins WORDS..: begins a session through pipes: 3 is where lines go, 4 is where answers come from. It is ended after some
# seconds, so that an answer that does not come ends the waiting for it.
begins() {
    [ -p to ] || mkfifo to from
    : > out
    echo 0 > status
    { timeout "$patience" "$program" session "$@" < to > from 2> err || echo $? > status; } &
    exec 3> to 4< from
}

# Writes a line of a session. It may be that nobody reads any more.
tell() {
    (printf '%b\n' "$1" >&3) 2> /dev/null || true
}

# Reads an answer, up to its last line. Where none comes, later ones are not waited for as long.
hear() {
    while IFS= read -r heard <&4; do
        printf '%s\n' "$heard" >> out
        case $heard in ok | 'refused '*) return ;; esac
    done
    patience=1
    echo 'no whole answer' >> out
}

# ends WHAT STATUS: ends the input, reads what else is answered, and judges.
ends() {
    exec 3>&-
    cat <&4 >> out
    exec 4<&-
    wait
    judge "$1" "$2"
}

# timeless FILE: it without the times of what is reported
timeless() {
    sed 's/^undorc: *[0-9][0-9]*\.[0-9][0-9][0-9] s  //' "$1" > "$1.timeless"
    mv "$1.timeless" "$1"
}

# works_in NAME: goes into an empty folder, in memory where that is to be had: thousands of files are made there.
# `worked_in` leaves it and removes it.
works_in() {
    work=$room/$1
    if [ -w /dev/shm ]; then
        work=$(mktemp -d -p /dev/shm)
        trap 'rm -rf "$room" "$work"' EXIT
    else
        mkdir "$work"
    fi
    cd "$work"
}
worked_in() {
    cd "$room"
    rm -rf "$work"
}

# preloads NAME: makes the library tests/lib/NAME.c, which `refusing` puts before the C library.
preloads() {
    preload=$room/$1.so
    if ! "${CC:-cc}" -shared -fPIC -o "$preload" "$top/tests/lib/$1.c" -ldl > made 2>&1; then
        failed=$((failed + 1))
        echo "FAILED: tests/lib/$1.c was not made:"
        cat made
    fi
    # What `python3` stands for may be a script, which takes longer than what is run.
    python=$(python3 -c 'import sys; print(sys.executable)')
}

# refusing NAME=VALUE.. -- WORDS..: what tests/lib/refusals.py says of runs in each of which something is refused.
refusing() {
    "$python" -BES "$top/tests/lib/refusals.py" "program=$program" "preload=$preload" "$@"
}

# all_end ENDS WHAT NAME=VALUE.. -- WORDS..: the same, judged: none is to be wrong, and ENDS are the lines of how
# they end.
all_end() {
    wants "$1" ''
    what=$2
    shift 2
    echo 0 > status
    refusing "$@" > said 2> err || echo $? > status
    sort -u said > out
    judge "$what" 0
}

# begins_at WORDS..: sessions of such runs go on with what the session of these words keeps, from nothing and on
# the lines `in`.
begins_at() {
    "$program" "$@" -l text.none.0 < in > out
}

# expects KEY: what they are to come to, where the transitions KEY can't be started: the answers to the lines
# `in`, and the file after each line.
expects() {
    refusing "expects=$1" --
}

# three_scripts: the database `base` of the scripts a, b that needs a, and c, which note in the file of
# LOG when they are run.
three_scripts() {
    for name in a b c; do
        mkdir -p "tree/$name"
        echo oneshot > "tree/$name/type"
        echo "echo up $name >> \"\$LOG\"" > "tree/$name/up"
        echo "echo down $name >> \"\$LOG\"" > "tree/$name/down"
    done
    echo a > tree/b/dependencies
    "$program" compile tree > base
    rm -r tree
}

# session_text FILE: the text of the session in FILE: of a history that of the present one
session_text() {
    LC_ALL=C awk 'NR == 2 && $1 == "at" { place = $2 }
        /^undorc-live / { found++ }
        found == place + 1 { print }
        found == place + 1 && /^end$/ { exit }' "$1"
}

# history_of MARK FILE: a history of the database `base` alone with the session of FILE, whose first state is one to stop at,
# and whose last state has this mark
history_of() {
    session_text "$2" > session.part
    printf 'undorc-history 1\nat 0 of 1\ngeneration stop %s\ndatabase %d\n' "$1" "$(wc -c < base)"
    cat base
    printf 'session %d\n' "$(wc -c < session.part)"
    cat session.part
    printf 'renames 0\nend\n'
    rm session.part
}

# makes_plain FILE: makes FILE the text of its session alone, as `session` writes it
makes_plain() {
    session_text "$1" > "$1.text"
    cat "$1.text" > "$1"
    rm "$1.text"
}

# first_line_is FILE LINE: the first line of FILE is LINE
first_line_is() {
    wants "$2\\n" ''
    head -n 1 "$1" > out
    : > err
    echo 0 > status
    judge "the first line of $1" 0
}

# skip WHAT: a row, or rows of one kind, that can't be run here; `.ci/run` lets none through
skip() {
    skipped=$((skipped + 1))
    echo "skipped: $1"
}

# may_be_unchecked WHAT: whether the program is one without checks of each access to memory, as `make program` compiles them
# in. With them it has an allocator of its own, needs far more room, and takes ten times as long, so WHAT is skipped
may_be_unchecked() {
    if grep -q __asan_init "$program"; then
        skip "$1, which takes a program without checks of memory (make build)"
        return 1
    fi
}

# may_be_nobody WHAT: whether the program can be run as another user; where it can't, WHAT is skipped
may_be_nobody() {
    if [ "$(id -u)" -ne 0 ] || ! command -v setpriv > /dev/null; then
        skip "$1, which takes root and setpriv (the package util-linux)"
        return 1
    fi
}
