#!/bin/sh
# case.sh PROGRAM SUPERVISOR CASE ROOM: one case of machine.sh. The last line is
# 'N passed, M failed, K skipped', and the status is 0 where none failed.
set -u
tests=$(realpath "$(dirname "$0")/..")
program=$1
supervisor=$2
room=$4
contrib=$tests/../../contrib
# shellcheck source=library.sh
. "$tests/machine/library.sh"
# shellcheck source=services.sh
. "$tests/machine/services.sh"
# shellcheck source=set.sh
. "$tests/machine/$3.sh"
tally
