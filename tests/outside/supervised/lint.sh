#!/bin/sh
# What contrib/lint says of source directories: lint.sh PROGRAM. The last line is 'N passed, M failed, K skipped'.
set -eu
here=$(realpath "$(dirname "$0")/..")
program=$(realpath "$1")
# shellcheck source=../../lib/library.sh
. "$here/../lib/library.sh"
export UNDORC_PROGRAM="$program"
program=$here/../../contrib/lint

# entry KIND NAME: one that has all that lint asks for
entry() {
    mkdir -p "tree/$2"
    echo "$1" > "tree/$2/type"
    echo 1000 | tee "tree/$2/timeout-up" > "tree/$2/timeout-down"
    case $1 in
        oneshot) echo true | tee "tree/$2/up" > "tree/$2/down" ;;
        longrun)
            printf '#!/bin/sh\n' > "tree/$2/run"
            chmod +x "tree/$2/run"
            echo 3 > "tree/$2/notification-fd"
            ;;
        bundle) rm tree/"$2"/timeout-* ;;
    esac
}
# finds LINES: what it says of these, and nothing else
finds() {
    if [ -z "$1" ]; then expect 0 '' '' '' -l tree; else expect 1 "$1" '' '' -l tree; fi
    rm -r tree
    entry oneshot disk
    entry longrun web
    entry bundle all
    printf 'disk\nweb\n' > tree/all/contents
}

entry oneshot disk
finds ''
finds ''

# Limits, on each way that has something to do.
rm tree/disk/timeout-up tree/web/timeout-down
finds 'tree/disk/timeout-up: no limit\ntree/web/timeout-down: no limit\n'
echo 0 > tree/disk/timeout-up
printf 00 > tree/web/timeout-up
finds 'tree/disk/timeout-up: no limit\ntree/web/timeout-up: no limit\n'
rm tree/disk/down tree/disk/timeout-down
finds ''

# Readiness, of either supervisor.
rm tree/web/notification-fd
finds 'tree/web: no readiness\n'
mv tree/web/notification-fd tree/web/check
chmod +x tree/web/check
finds ''

# Without -l, one line on standard error counts the limits that are not set, and nothing is found.
rm tree/disk/timeout-up tree/web/timeout-up tree/web/timeout-down
expect 0 '' 'lint: 3 limits are not set, and are 120000 ms; -l lists them\n' '' tree
export UNDORC_USUAL=0
expect 1 'tree/disk/timeout-up: no limit\ntree/web/timeout-up: no limit\ntree/web/timeout-down: no limit\n' '' '' tree
unset UNDORC_USUAL
finds 'tree/disk/timeout-up: no limit\ntree/web/timeout-up: no limit\ntree/web/timeout-down: no limit\n'

# A run without the right to run, a logger that gets nothing, and names that are taken.
echo log > tree/web/producer-for
mkdir tree/web/log
chmod -x tree/web/run
entry longrun undorc-pipes
finds 'tree/undorc-pipes: name is taken\ntree/web/log: log gets nothing\ntree/web/run: no right to run\n'

# The right to run.
chmod -x tree/web/run
: > tree/web/finish
: > tree/web/check
finds 'tree/web/check: no right to run\ntree/web/finish: no right to run\ntree/web/run: no right to run\n'

# The interpreter.
printf '#!/nowhere/sh -e\n' | tee tree/web/run > tree/web/check
chmod +x tree/web/check
printf '#! /bin/sh -e\n' > tree/web/finish
chmod +x tree/web/finish
finds 'tree/web/check: no interpreter\ntree/web/run: no interpreter\n'

# Windows line ends, in texts and in the names of folders of names.
printf 'mkdir q\r\n' > tree/disk/up
printf 'disk\r\n' > tree/web/dependencies
mkdir tree/all/contents.d
: > "$(printf 'tree/all/contents.d/disk\r')"
finds 'tree/disk/up: carriage return\ntree/web/dependencies: carriage return\n'

# Files that nobody reads: misspelt ones, those of another kind, and links that lead nowhere. What a supervisor reads of a
# longrun is none.
: > tree/disk/depends
: > tree/disk/run
: > tree/all/dependencies
ln -s nowhere tree/web/content
mkdir tree/web/data tree/web/env tree/web/log tree/web/root tree/web/supervise tree/web/event
: > tree/web/flag-newpidns
echo 1000 > tree/web/timeout-kill
: > tree/web/down
rm tree/all/contents
finds 'tree/all/dependencies: nobody reads it\ntree/all: no contents\ntree/disk/depends: nobody reads it\ntree/web/content: nobody reads it\n'

# What is no entry, and what is no source.
mkdir tree/.hidden tree/none tree/daemon
: > tree/readme
echo daemon > tree/daemon/type
finds 'tree/daemon: no type, or an unknown one; undorc refuses it\ntree/none: no type, or an unknown one; undorc refuses it\n'
expect 1 'tree/web: it looks like an entry: name the directory above it\nnowhere: no directory\n' '' '' tree/web nowhere tree
expect 100 '' 'usage: lint [-l] SOURCE..\n' ''
tally
