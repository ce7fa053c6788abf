#!/bin/sh
# Whether a program is the one that was proved: tests/gate/proved.sh PROGRAM. The file `proved` beside it
# has the sum of the program that `make build` or the gate proved and built; the status is 0 if PROGRAM has
# this sum, else 1. No time counts, and no path.
#
# tests/gate/proved.sh -w PROGRAM writes that file, with the commit of that moment. Only `make build` and the gate call
# it, right after the proof.
set -eu
if [ "$1" = -w ]; then
    sum=$(sha256sum < "$2")
    top=$(dirname "$0")/../..
    commit=$(git -C "$top" rev-parse HEAD 2> /dev/null || echo unknown)
    [ -z "$(git -C "$top" status --porcelain 2> /dev/null)" ] || commit="$commit, with changes that are not committed"
    printf 'program %s\ncommit %s\n' "${sum%% *}" "$commit" > "$(dirname "$2")/proved"
    exit
fi
[ -f "$1" ] || exit 1
sum=$(sha256sum < "$1")
grep -q -x "program ${sum%% *}" "$(dirname "$1")/proved" 2> /dev/null
