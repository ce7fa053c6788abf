#!/bin/sh
# Follows docs/TUTORIAL.md and docs/S6RC.md word by word, each in an empty folder, with what `make install` copies:
# tests/gate/tutorial.sh PROGRAM. Each answer is compared with what stands there, but for times and
# process numbers; lines with a time that stand together may come in another order. The last line
# is 'N passed, M failed, K skipped', and the status is 0 where none failed.
set -eu
here=$(realpath "$(dirname "$0")")
program=$(realpath "$1")
. "$here/../lib/library.sh"
if ! command -v s6-svscan > /dev/null || ! command -v execlineb > /dev/null; then
    skip 'the tutorials, since s6 or execline is missing (the packages s6 and execline)'
    tally
    exit
fi

# Ends what was started: all that stands below the folders, by its process number.
end_all() {
    for turn in term kill; do
        for process in /proc/[0-9]*; do
            case $(readlink "$process/cwd" 2> /dev/null) in
                "$room"/empty*) kill -s "$turn" "${process#/proc/}" 2> /dev/null || true ;;
            esac
        done
        sleep 0.2
    done
    cd /
    rm -rf "$room"
}
trap end_all EXIT
trap 'exit 130' INT
trap 'exit 143' TERM

prefix=$room/usr/local
PREFIX=$prefix sh "$top/packaging/install.sh" "$program"

# groups ANSWERS: of a document, each command as a group of lines of one script, with the file of its
# answer, and what is wanted.
groups() {
    awk -v answers="$1" '
    function close_command() {
        if (command == "") return
        print "{\n" command "} > " answers "/" number ".out 2>&1"
        close(wanted)
        command = ""
    }
    /^```/ { if (inside) close_command(); inside = !inside; next }
    !inside { next }
    until != "" { command = command $0 "\n"; if ($0 == until) until = ""; next }
    /^\$ / {
        close_command()
        number++
        wanted = answers "/" number ".wanted"
        printf "" > wanted
        command = substr($0, 3) "\n"
        print substr($0, 3) > (answers "/" number ".command")
        close(answers "/" number ".command")
        if (match($0, /<<.*/)) {
            until = substr($0, RSTART + 2)
            gsub(/\047| .*/, "", until)
        }
        next
    }
    wanted != "" { print > wanted }'
}

# masked FILE: it without what differs from run to run.
masked() {
    sed -e 's/^undorc: *[0-9]*\.[0-9]* s  /undorc: TIME  /' -e 's/(pid [0-9]*)/(pid N)/' \
        -e 's/[0-9][0-9]* seconds/N seconds/g' \
        -e 's/[0-9]\{4\}-[0-9][0-9]-[0-9][0-9]T[0-9:]*Z/DATE/g' "$1" | awk '
        function flush(  i, j, held) {
            for (i = 2; i <= count; i++) {
                held = lines[i]
                for (j = i - 1; j > 0 && lines[j] > held; j--) lines[j + 1] = lines[j]
                lines[j + 1] = held
            }
            for (i = 1; i <= count; i++) print lines[i]
            count = 0
        }
        /^undorc: TIME / { lines[++count] = $0; next }
        { flush(); print }
        END { flush() }'
}

# follow NAME: the document docs/NAME.md.
follow() {
    answers=$room/answers.$1
    mkdir "empty.$1" "$answers"
    sed "s|/usr/local|$prefix|g" "$top/docs/$1.md" | groups "$answers" > "follow.$1"
    ended=0
    (
        cd "empty.$1"
        env -i HOME="$HOME" PATH="$prefix/bin:$PATH" timeout 120 sh "../follow.$1" > ../left 2>&1
    ) || ended=$?
    number=1
    while [ -f "$answers/$number.command" ]; do
        masked "$answers/$number.wanted" > out.wanted
        if [ -f "$answers/$number.out" ]; then
            masked "$answers/$number.out" > out
        else
            echo "it was not come to; status $ended" > out
        fi
        : > err
        : > err.wanted
        echo 0 > status
        judge "docs/$1.md: $(cat "$answers/$number.command")" 0
        number=$((number + 1))
    done
    [ "$number" -gt 20 ] || { failed=$((failed + 1)); echo "FAILED: docs/$1.md has no commands"; }
    [ ! -s left ] || cat left
}
follow TUTORIAL
follow S6RC
tally
