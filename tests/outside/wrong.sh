#!/bin/sh
# Runs programs that do one thing wrong, each over a topic of program.sh, and looks whether a row
# fails: tests/outside/wrong.sh PROGRAM [NAME..]. Such a program is wrong/NAME.sh, over the right one. Its
# head has the topic, a text that stands in the title of the row, and a tool that the row takes, if any.
# With a program over the right one that does nothing wrong, no such row fails. The last line is 'N passed, M failed, K skipped'.
set -eu
here=$(realpath "$(dirname "$0")")
right=$(realpath "$1")
shift
. "$here/../lib/library.sh"
if [ $# -eq 0 ]; then
    for wrong in "$here"/wrong/*.sh; do
        name=${wrong##*/}
        set -- "$@" "${name%.sh}"
    done
fi

# head_of WORD NAME: what the line of this word says at the head of a wrong program
head_of() {
    sed -n "s/^# $1: //p" "$here/wrong/$2.sh"
}

# makes NAME TEXT: an executable of that name, which runs this text with RIGHT, the right program
makes() {
    mkdir "$1"
    printf '#!/bin/sh\nRIGHT=%s\nWRONG=%s\n%s\n' "$right" "$room/$1" "$2" > "$1/undorc"
    chmod 755 "$1" "$1/undorc"
}

# run NAME TOPIC: the topic over a program that was made; what a wrong one leaves behind is ended
run() {
    "$here/../lib/within.py" 600 sh "$here/program.sh" "$1/undorc" "$2" > "$1/said" 2>&1 || true
}

chmod 755 .
topics=
for name; do
    shift
    tool=$(head_of takes "$name")
    if [ -n "$tool" ] && ! command -v "$tool" > /dev/null; then
        skip "$name, which takes $tool"
    else
        set -- "$@" "$name"
    fi
done
for name; do
    topic=$(head_of topic "$name")
    case " $topics " in *" $topic "*) ;; *) topics="$topics $topic" ;; esac
    makes "$name" ". '$here/wrong/$name.sh'"
    run "$name" "$topic" &
done
for topic in $topics; do
    makes "right.$topic" 'exec "$RIGHT" "$@"'
    run "right.$topic" "$topic" &
done
wait
for name; do
    topic=$(head_of topic "$name")
    fails=$(head_of fails "$name")
    if grep -q -F -e 'passed, ' "$name/said" && grep '^FAILED: ' "$name/said" | grep -q -F -e "$fails"; then
        passed=$((passed + 1))
    else
        failed=$((failed + 1))
        echo "FAILED: $name: no row of $topic fails whose title has: $fails"
        tail -n 40 "$name/said"
    fi
    if grep '^FAILED: ' "right.$topic/said" | grep -F -e "$fails"; then
        failed=$((failed + 1))
        echo "FAILED: the right program fails in $topic"
    fi
done
tally
