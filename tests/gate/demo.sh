#!/bin/sh
# Shows the main job on the sample: a query, a plan, a session with a failure and its undo, a replay.
#   tests/gate/demo.sh PROGRAM UNPROVED
# PROGRAM is run if it is the one that was proved, and no source has changed since. Else the program is
# compiled as it stands to UNPROVED, and that one is run.
set -eu
cd "$(dirname "$0")/../.."
program=$1
unproved=$2
cases=docs/samples/demo
base=docs/samples/sample.txt
# shellcheck source=../lib/kit.sh
. tests/lib/kit.sh

if is_current "$program" && tests/gate/proved.sh "$program"; then
    said="This was the proved program, $program."
else
    tests/gate/unproved.sh "$unproved"
    program=$unproved
    said="This was $program, of which nothing is proved. \`make build\` proves the program, and builds it."
fi
built=$(realpath "$program")
room=$(mktemp -d)
trap 'rm -rf "$room"' EXIT
cp "$base" "$room/sample.txt"

# show CASE TITLE: the arguments, the input, and what the program writes
show() {
    echo
    echo "# $2"
    words=$(tr '\n' ' ' < "$cases/$1.args")
    if [ -s "$cases/$1" ]; then
        echo "\$ undorc ${words% } <<'END'"
        cat "$cases/$1"
        echo END
    else
        echo "\$ undorc ${words% }"
    fi
    case=$(realpath "$cases/$1")
    set --
    while IFS= read -r word; do set -- "$@" "$word"; done < "$case.args"
    (cd "$room" && "$built" "$@" < "$case")
}

echo "Running $program. sample.txt is the database $base, which \`undorc compile\` made of docs/samples/source."
show query 'All that web needs, directly or through others.'
show plan 'What bringing up the bundle site would do where root is up.'
show session 'The bundle comes up; its undo fails at log; the journal keeps what is left; redo.'
show undone 'A script of transitions: net fails on its way up, and the change is undone.'
echo
echo "$said"
