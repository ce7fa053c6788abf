#!/bin/sh
# One machine of supervised.sh: machine.sh PROGRAM SUPERVISOR KIND, where KIND is `controllers`, `readme`, or
# how many transitions are made at once. The last line is 'N passed, M failed, K skipped'.
set -eu
here=$(realpath "$(dirname "$0")/..")
program=$(realpath "$1")
supervisor=$2
kind=$3
folder=$(realpath "$here/../../contrib/machine")
export UNDORC_SUPERVISOR="$supervisor"
# shellcheck source=../../lib/library.sh
. "$here/../lib/library.sh"
# shellcheck source=s6.sh
. "$here/supervised/$supervisor.sh"
# shellcheck source=services.sh
. "$here/supervised/services.sh"
scanner=
trap tidy EXIT
trap 'exit 130' INT
trap 'exit 143' TERM HUP

# All that is started here has the room's name in its environment, by which it is found in the end.
[ "$kind" = readme ] || export UNDORC_PROGRAM="$program" UNDORC_SOURCE="$room/services" UNDORC_DB="$room/db" UNDORC_LIVE="$room/run/live"
[ "$kind" = readme ] || export UNDORC_SCAN="$room/scan" UNDORC_PLACE="$room/run/services" UNDORC_WORKERS=4
[ "$kind" = readme ] || export UNDORC_USUAL=20000 UNDORC_SETTLE=1
mkdir services scan flags logged
mkfifo fifo
: > out.wanted
: > err.wanted

case $kind in
    controllers)
        # shellcheck source=controllers.sh
        . "$here/supervised/controllers.sh"
        # shellcheck source=between.sh
        . "$here/supervised/between.sh"
        ;;
    readme)
        # shellcheck source=readme.sh
        . "$here/supervised/readme.sh"
        ;;
    *)
        UNDORC_WORKERS=$kind
        # shellcheck source=life.sh
        . "$here/supervised/life.sh"
        ;;
esac
unscans
gone 'nothing is left'
tally
