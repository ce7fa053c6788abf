#!/bin/sh
# Runs the built program under real supervisors, with the scripts of contrib: tests/outside/supervised.sh PROGRAM. The
# last line is 'N passed, M failed, K skipped', and the status is 0 where none failed. Machines whose supervisor is
# not installed are skipped.
#
# A machine is a supervisor in a folder of its own, with services that are made for it (supervised/machine.sh). They
# run side by side: of each supervisor one whose controller is called by itself, one that is set up as its README says, and
# one for each number of workers. What contrib/lint says needs none.
set -eu
here=$(realpath "$(dirname "$0")")
program=$(realpath "$1")
room=$(mktemp -d)
machines=

# Each machine ends what it started, also where it is ended.
tidy() {
    trap '' INT TERM HUP
    for machine in $machines; do kill -TERM "$machine" 2> /dev/null || true; done
    wait
    rm -rf "$room"
}
trap tidy EXIT
trap 'exit 130' INT
trap 'exit 143' TERM HUP

passed=0
failed=0
skipped=0
# shellcheck source=../lib/tally.sh
. "$here/../lib/tally.sh"
names=
for supervisor in s6 runit; do
    # shellcheck source=supervised/s6.sh
    . "$here/supervised/$supervisor.sh"
    if ! there; then
        skipped=$((skipped + 1))
        echo "skipped: all machines under $supervisor, since this package is not installed"
        continue
    fi
    kinds='controllers 1 4 64'
    # The README sets a machine up under s6.
    [ "$supervisor" != s6 ] || kinds="$kinds readme"
    for kind in $kinds; do
        name=$supervisor.$kind
        sh "$here/supervised/machine.sh" "$program" "$supervisor" "$kind" > "$room/$name" 2>&1 &
        machines="$machines $!"
        names="$names $name"
    done
done
sh "$here/supervised/lint.sh" "$program" > "$room/lint" 2>&1 &
machines="$machines $!"
names="$names lint"
wait
machines=
for name in $names; do
    adds "$room/$name" || sed "s/^/$name: /" "$room/$name"
done
tally
