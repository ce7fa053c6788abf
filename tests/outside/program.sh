#!/bin/sh
# Runs the built program from outside: tests/outside/program.sh PROGRAM [TOPIC..]. The topic `rows` is the rows of text;
# others are what is no plain run, as shell, a file of topics each. Without a topic all are run. The last line is
# 'N passed, M failed, K skipped', and the status is 0 where none failed.
set -eu
here=$(realpath "$(dirname "$0")")
program=$(realpath "$1")
shift
[ $# -gt 0 ] || set -- rows words inputs bounds pictures messages terminal sessions scripts schedules starting live \
    order locking rights recovery asking left checking repairing oneshots reports seals restarts typed status failures outputs update histories back readme devices keeping memory held drawn compile
topics=$*
. "$here/../lib/library.sh"

# rows_of_text: all of them; a failed one says for itself why
rows_of_text() {
    bad=0
    sh "$here/rows.sh" "$program" > said 2>&1 || bad=$?
    adds said || bad=0
    grep -v '^[0-9]* passed, ' said || true
    if [ "$bad" -ne 0 ]; then
        failed=$((failed + 1))
        echo "FAILED: the rows of text ended with status $bad"
    fi
}

for topic in $topics; do
    case $topic in
        rows) rows_of_text ;;
        *)
            # shellcheck source=/dev/null
            . "$here/topics/$topic.sh"
            ;;
    esac
done
tally
