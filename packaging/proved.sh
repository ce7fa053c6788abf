#!/bin/sh
# Prints what was proved of a program: packaging/proved.sh PROGRAM [STRIPPED], for an archive or a package in which
# the program stands as it is, or without its symbols as STRIPPED. The status is 1, and nothing is printed, if PROGRAM
# is not the one that was proved (tests/gate/proved.sh).
set -eu
program=$(realpath "$1")
stripped=${2:-}
[ -z "$stripped" ] || stripped=$(realpath "$stripped")
cd "$(dirname "$0")/.."
tests/gate/proved.sh "$program" || exit 1
sum_of() {
    sha256sum < "$1" | cut -d ' ' -f 1
}
sum=$(sum_of "$program")
# The commit at which it was proved, and how the gate ended where it was run on this very program.
commit=$(sed -n 's/^commit //p' "$(dirname "$program")/proved")
kept=$(dirname "$program")/gate
gate='not kept for this program'
! grep -q -s -x "program $sum" "$kept" || gate=$(sed -n 's/^gate //p' "$kept")
# The newest version of glibc that the program names; a program without one is linked statically.
library=$(grep -a -o 'GLIBC_2\.[0-9]*' "$program" | sort -u -t . -k 2n | tail -n 1 | tr _ ' ')
case $library in
    '') library='none' ;;
    *) library="glibc ${library#* }, or a later one; musl does not run it" ;;
esac
echo "program: sha256 $sum"
[ -z "$stripped" ] || echo "stripped, as it stands here: sha256 $(sum_of "$stripped")"
cat <<END
version: $(packaging/version.sh)
C library: $library
commit: $commit
kit: $(rt version 2> /dev/null || echo unknown)
last line of the gate: $gate

This program was proved and built in one run, and has had this sum since. Whoever installs it trusts the one who
made it, and its way here: no proof stands beside it. In the repository, at that commit and with that kit,
\`make test\` proves everything from nothing, builds the program anew and runs it; whoever takes that one need not
trust this one.
END
