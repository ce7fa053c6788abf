#!/bin/sh
# Tries a program without the Rattle kit: check [PROGRAM]. Without a PROGRAM it is that of this installation,
# or `undorc` of the archive that this stands in. The samples of the documents are compiled, planned, and moved
# with scripts that fail; scripts of its own are run, undone and redone, and the file of a session is read back.
# The last line is 'N passed, M failed'; the status is 0 if none failed.
set -eu
here=$(dirname "$(realpath "$0")")
case $here in
    */share/undorc) program=${1:-$here/../../bin/undorc} samples=$here/../doc/undorc/docs/samples ;;
    *) program=${1:-$here/../undorc} samples=$here/../docs/samples ;;
esac
program=$(realpath "$program")
samples=$(realpath "$samples")
room=$(mktemp -d)
trap 'rm -rf "$room"' EXIT
cd "$room"
unset UNDORC_DB UNDORC_LIVE UNDORC_RUNNER UNDORC_CONTROLLER UNDORC_OUTPUT
passed=0
failed=0

# gives TITLE STATUS COMMAND..: what a command writes, against the file `wanted`, and its status
gives() {
    title=$1 wanted=$2
    shift 2
    status=0
    "$@" > given 2> said < /dev/null || status=$?
    if [ "$status" -eq "$wanted" ] && cmp -s wanted given; then
        passed=$((passed + 1))
        echo "ok: $title"
    else
        failed=$((failed + 1))
        echo "FAILED: $title: status $status, wanted $wanted (- wanted, + given):"
        diff -u wanted given | sed 1,2d || true
        cat said
    fi
}

for news in "$here/../NEWS" "$samples/../../NEWS"; do
    cat "$news" 2> /dev/null || zcat "$news.gz" 2> /dev/null || true
done | sed -n '/^undorc [0-9]/p' | head -n 1 > wanted
gives 'version' 0 "$program" version
cp "$samples/sample.txt" wanted
gives 'compile' 0 "$program" compile "$samples/source"
printf '%s\n' 'raise db log net root web' ok > wanted
gives 'change -n' 0 "$program" change -n -b "$samples/sample.txt" -x none site
printf '%s\n' 'raised log root' 'failed net' 'blocked db web' ok > wanted
gives 'a change in part' 2 "$program" change -q -b "$samples/sample.txt" -x up:net site

mkdir -p services/disk services/net services/mail
for name in disk net mail; do echo oneshot > services/$name/type; done
echo 'mkdir srv' > services/disk/up
echo 'rmdir srv' > services/disk/down
echo 'touch srv/net' > services/net/up
echo 'rm srv/net' > services/net/down
echo disk > services/net/dependencies
echo false > services/mail/up
echo net > services/mail/dependencies
: > wanted
gives 'compile -o' 0 "$program" compile -o db services
export UNDORC_DB=db UNDORC_LIVE=live
printf '%s\n' 'raised disk net' ok > wanted
gives 'change' 0 "$program" change net
printf '%s\n' 'failed mail' ok > wanted
gives 'a script that fails' 2 "$program" change -q mail
printf '%s\n' 'disk up' "mail failed $(sed -n 's|^mail ||p' live.failed)" 'net up' > wanted
gives 'status' 0 "$program" status
ls srv > listed
echo net > wanted
gives 'scripts have run' 0 cat listed
printf '%s\n' 'lowered disk net' ok > wanted
gives 'undo' 0 "$program" undo
printf '%s\n' 'raised disk net' ok > wanted
gives 'redo' 0 "$program" redo
printf '%s\n' 'at 1 of 2' '0 +disk +net' ok > wanted
gives 'journal' 0 "$program" journal
echo "$passed passed, $failed failed"
[ "$failed" -eq 0 ]
