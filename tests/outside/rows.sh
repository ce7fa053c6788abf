#!/bin/sh
# Runs rows of text on the built program: tests/outside/rows.sh PROGRAM [TOPIC..] [-r NAME]. A topic is a file
# rows/TOPIC.rows; without one, all are run. With -r only the rows are run whose title has NAME in it. The last line
# is 'N passed, M failed, K skipped', and the status is 0 where none failed.
#
# A row reads like a terminal session. Rows are separated by empty lines; each line begins with a mark and a space:
#
#   # TITLE      what the row shows; its first line
#   $ WORDS      a run of the program; the shell reads the words, with its quotes
#   < LINE       a line of input; lines in front of the first run come first in the input of each run of the row
#   << NAME      the file NAME as input: `sample` is docs/samples/sample.txt, others are made by `:`
#   | COMMAND    what a shell command writes as input; it may read these files
#   > LINE       a line that the run before writes
#   ! LINE       a line that it writes to standard error
#   !! TEXT      a text in a line that stands behind a fault, to help, and begins with two spaces
#   = N          the status with which it ends, where that is not 0
#   @ WORDS      in place of $: a session with these words on the database that `<< NAME` in front of it gives, in four
#                ways: with the database in front of its lines; with -b NAME -w 64; with -b NAME -w 2; and with -b NAME
#                -w 1 through two pipes, where the answer to a line, the > after it, is read before the next line is
#                written
#   : PATH TEXT  a file of this text and of the input lines below, or a folder, where PATH ends in /; it is there for the
#                row, or for all rows that follow where it stands in a paragraph without a title
#   ## REMARK    a remark
#
# Escapes are printf's of %b: \t, \0377, \\ for a backslash. Each line ends in a newline, unless \c is its end; the text of
# a file that stands after its path does not. Whatever is no such line, and a row without a title or a run, has failed.
set -eu
here=$(realpath "$(dirname "$0")")
program=$(realpath "$1")
shift
. "$here/../lib/library.sh"
only=
topics=
while [ $# -gt 0 ]; do
    if [ "$1" = -r ] && [ $# -gt 1 ]; then
        only=$2
        shift
    else
        topics="$topics $1"
    fi
    shift
done

# translate TOPIC FILE: rows as shell, which makes what is given and wanted of each run, and runs it.
translate() {
    ONLY=$only awk -v topic="$1" '
    function quoted(text) {
        gsub(/\047/, "\047\\\\\047\047", text)
        return "\047" text "\047"
    }
    function prints(text) { return "printf \047%b\\n\047 " quoted(text) "\n" }
    function written(parts, name) { print parts == "" ? ": > " name : "{\n" parts "} > " name }
    function amiss(what) { print "amiss " quoted(topic ":" NR ": " what) }
    # Whether the row that is read is one of those that are asked for; what stands in no row is for all.
    function is_wanted() { return title == "" || index(title, ENVIRON["ONLY"]) }

    function close_file() {
        if (path == "") return
        if (is_wanted()) {
            print "file " quoted(path) " " quoted(text)
            if (own != "") print "{\n" own "} >> \"$made\""
            if (title != "") kept = kept " " quoted(path)
        }
        path = own = ""
    }
    function close_run() {
        if (words == "") return
        if (is_wanted()) print_run()
        words = own = ""
    }
    function print_run() {
        written(piped ? own : common own, "in")
        written(wanted, "out.wanted")
        written(told, "err.wanted")
        written(helped, "behind")
        place = quoted(topic ":" begun ": " title)
        if (piped) print "talk() {\n:\n" talk "}\nsession " place " " quoted(words) " " quoted(front)
        else print "run " place " " status + 0 " " quoted(words)
    }
    function close_row() {
        close_file()
        close_run()
        if (title != "" && !runs) amiss("a row without a run")
        if (kept != "") print "unmake" kept
        title = common = front = kept = ""
        runs = inside = 0
    }
    function gives(part) {
        if (path != "" || words != "") own = own part
        else if (title != "") common = common part
        else amiss("an input without a row")
    }
    function begin_run() {
        close_file()
        close_run()
        if (title == "") amiss("a run without a title")
        if (rest ~ /^ *$/) amiss("a run without words")
        words = rest
        begun = NR
        runs++
        piped = (mark == "@")
        wanted = told = helped = talk = status = ""
        if (piped && (front == "" || common != "cat " quoted(front) " || lacks\n" || words !~ /^session /))
            amiss("a session in four ways on no database")
    }

    $0 == "" { close_row(); next }
    { mark = $0; sub(/ .*/, "", mark); rest = substr($0, length(mark) + 2) }
    mark == "##" { next }
    mark == "#" && !inside && rest != "" { title = rest; inside = 1; rows++; next }
    { inside = 1 }
    mark == ":" && words == "" && rest ~ /^[^ ]/ {
        close_file()
        path = rest
        sub(/ .*/, "", path)
        text = substr(rest, length(path) + 2)
        next
    }
    mark == "$" || mark == "@" { begin_run(); next }
    mark == "<" { gives(prints(rest)); if (piped) talk = talk "tell " quoted(rest) "\n"; unheard = 1; next }
    mark == "<<" && !(piped && words != "") { if (common == "") front = rest; gives("cat " quoted(rest) " || lacks\n"); next }
    mark == "|" && !(piped && words != "") { gives("sh -c " quoted(rest) " || lacks\n"); next }
    words == "" { amiss("no mark, or a line in front of its run: " $0); next }
    mark == ">" { wanted = wanted prints(rest); if (piped && unheard) talk = talk "hear\n"; unheard = 0; next }
    mark == "!" && !piped { told = told prints(rest); next }
    mark == "!!" && !piped && rest != "" { helped = helped prints(rest); next }
    mark == "=" && !piped && status == "" && rest ~ /^[1-9][0-9]*$/ && rest + 0 < 256 { status = rest; next }
    { amiss("no mark, or a line that has no place here: " $0) }
    END { close_row(); if (!rows) amiss("no rows"); print "whole=" quoted(topic) }' "$2"
}

# What is no row.
amiss() {
    failed=$((failed + 1))
    echo "FAILED: $1"
}

# An input that is not there, or a command that ends badly: the run fails.
lacks() {
    lacking=yes
}

# file PATH TEXT: makes a file, and the folders above it; its path is `made`.
file() {
    made=$(printf '%b.' "$1")
    made=./${made%.}
    if [ -e "$made" ] || [ -L "$made" ]; then amiss "$topic: there is a file $made"; fi
    mkdir -p "${made%/*}"
    case $made in */) ;; *) printf '%b' "$2" > "$made" ;; esac
}

# Removes the files of a row, with the folders above them.
unmake() {
    for made in "$@"; do
        made=$(printf '%b.' "$made")
        rm -rf "./${made%%/*}"
    done
}

# run TITLE STATUS WORDS: on the input `in`.
run() {
    if [ -n "$lacking" ]; then
        amiss "$1 (\$ $3): there is no such input"
        lacking=
        return
    fi
    echo 0 > status
    (set -f; eval "set -- $3"; exec "$program" "$@") < in > out 2> err || echo $? > status
    sed -n '2,$ { /^  /p; }' err > helping
    while IFS= read -r text; do
        grep -q -F -e "$text" helping || amiss "$1 (\$ $3): no line behind the fault has: $text"
    done < behind
    judge "$1 (\$ $3)" "$2"
}

# session TITLE WORDS NAME: on the lines `in`, and on those of `talk` through pipes.
session() {
    mv in lines
    cat "$3" lines > in || lacks
    run "$1" 0 "$2"
    mv lines in
    run "$1" 0 "$2 -b $3 -w 64"
    run "$1" 0 "$2 -b $3 -w 2"
    eval "begins ${2#session} -b $3 -w 1"
    talk
    ends "$1 (\$ $2 -b $3 -w 1, through pipes)" 0
}

if [ -z "$topics" ]; then
    for rows in "$here"/rows/*.rows; do
        topic=${rows##*/}
        topics="$topics ${topic%.rows}"
    done
fi
lacking=
for topic in $topics; do
    whole=
    mkdir "$topic"
    cd "$topic"
    for sample in "$samples"/*.txt; do
        name=${sample##*/}
        cp "$sample" "${name%.txt}"
    done
    translate "$topic" "$here/rows/$topic.rows" > "$room/.rows"
    # shellcheck source=/dev/null
    . "$room/.rows"
    [ "$whole" = "$topic" ] || amiss "$topic: the rows can't be read"
    cd ..
done
[ -z "$only" ] || [ $((passed + failed)) -gt 0 ] || amiss "no row of$topics has a title with: $only"
tally
