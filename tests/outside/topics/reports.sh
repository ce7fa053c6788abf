# What one-shot commands report, which of them are refused before anything moves, and what the log of their file says of
# them. program.sh reads this file.
# shellcheck source=../trees.sh
. "$here/trees.sh"
mkdir reports
cd reports
printf '%b' "$sample" > base
: > in
begin_tree
oneshot bad 'echo here is why; exit 3'
oneshot good true
longrun guard
"$program" compile tree > scripts

# reports STATUS OUTPUT REPORTS WORDS..: the command of these words ends so, and reports this, but for the times
reports() {
    ended=$1
    wants "$2" "$3"
    shift 3
    runs "$@"
    sed -e 's/^undorc: *[0-9]*\.[0-9][0-9][0-9] s  //' err > untimed
    cp untimed err
    judge "undorc $*, and what it reports" "$ended"
}

# hinted LINE: that is a line of what was reported, after the fault
hinted() {
    passed=$((passed + 1))
    grep -q -x -e "  $1" untimed && return
    passed=$((passed - 1))
    failed=$((failed + 1))
    echo "FAILED: no hint is '$1':"
    cat untimed
}

# What does not succeed is reported; with -q nothing is, and with -v all is. A session reports nothing of itself.
failing='raised good\nfailed bad\nok\n'
reports 2 "$failing" 'up bad: failed 3\n' change bad good -b scripts -l one
rm one
reports 2 "$failing" '' change bad good -b scripts -l one -q
rm one
reports 2 "$failing" 'up bad: started\nhere is why\nup bad: failed 3\nup good: started\nup good: ok\n' \
    change bad good -b scripts -l one -w 1 -v -q
rm one
echo 'change bad good' > in
reports 0 "$failing" '' session -b scripts -l one
: > in
rm one
reports 2 'failed root\nblocked net\nok\n' 'up root: failed 1\n' change net -b base -x up:root -l one
reports 1 'refused Unknown nobody\n' '' change nobody -b base -x none -l one
rm -f one

# A program that can't be started is named, with the error.
reports 2 'failed bad\nok\n' \
    'undorc: bad: ./scripts can'"'"'t be started: Permission denied (os error 13)\nup bad: not started\n' \
    change bad -b scripts -l one -r ./scripts
rm one

# A longrun moves only where a program controls it: nothing has moved before, and -x and -n do without.
reports 1 '' 'undorc: NoController guard\n' change guard good -b scripts -l one
hinted 'guard is a longrun; -c names its controller'
passed=$((passed + 1))
[ ! -e one ] || { passed=$((passed - 1)); failed=$((failed + 1)); echo 'FAILED: a change that is refused made its file'; }
reports 0 'raise good guard\nok\n' 'undorc: one does not exist: nothing is up\n' change -n guard good -b scripts -l one
reports 0 'raised good guard\nok\n' '' change guard good -b scripts -l one -x none
reports 1 '' 'undorc: NoController guard\n' undo -b scripts -l one
reports 1 '' 'undorc: NoController guard\n' restart guard good -b scripts -l one
reports 0 'live good guard\nok\n' '' live -b scripts -l one
reports 0 'lowered good\nok\n' '' change -d good -b scripts -l one
reports 0 'lowered guard\nok\n' '' change -d guard -b scripts -l one -c true
rm one

# What starts programs, or asks what is up, needs a file.
for line in 'change good' undo redo live bundles journal 'add b good' 'delete b'; do
    # The words stand apart.
    # shellcheck disable=SC2086
    wrong $line -b scripts
    says '^undorc: -l is missing, or UNDORC_LIVE: the file that keeps what is up$'
done
: > in
reports 0 'raise good\nok\n' '' change -n good -b scripts
reports 0 'raised good\nok\n' '' change good -x none -b scripts
reports 1 'refused NothingToUndo\n' '' undo -x none -b scripts

# The environment names the programs, where the words name none; and its file is left alone with -x.
UNDORC_LIVE=one UNDORC_RUNNER=./scripts UNDORC_CONTROLLER=true
export UNDORC_LIVE UNDORC_RUNNER UNDORC_CONTROLLER
reports 0 'raised guard\nok\n' '' change guard -b scripts
reports 2 'failed good\nok\n' \
    'undorc: good: ./scripts can'"'"'t be started: Permission denied (os error 13)\nup good: not started\n' change good -b scripts
reports 0 'raised good\nok\n' '' change good -b scripts -r '/bin/sh -c'
reports 2 'failed guard\nok\n' 'down guard: failed 1\n' change -d guard -b scripts -c false
cp one one.before
reports 0 'raised good\nok\n' '' change good -b scripts -x none
passed=$((passed + 1))
cmp -s one one.before || { passed=$((passed - 1)); failed=$((failed + 1)); echo 'FAILED: -x altered the file of UNDORC_LIVE'; }
unset UNDORC_LIVE UNDORC_RUNNER UNDORC_CONTROLLER
rm one

# A name with a newline can't make an answer of two lines.
wrong change "$(printf 'nobody\nok')" -b scripts -l one
says '^undorc: a name has no newline$'
wrong add "$(printf 'b\nok')" good -b scripts -l one
wrong restart "$(printf 'nobody\nok')" -b scripts -l one -x none
says '^undorc: a name has no newline$'
wrong status "$(printf 'nobody\nok')" -b scripts -l one
says '^undorc: a name has no newline$'

# A file that can't be had, or replaced: which it is, and why.
: > in
reports 111 '' 'undorc: Io\n' change good -b scripts -l nowhere/one
hinted 'nowhere/one.lock: no such file or directory'
mkdir shut
"$program" change good -b scripts -l shut/one > out
if may_be_nobody 'a directory that may not be written'; then
    chmod 755 .. . shut
    chmod 666 shut/one shut/one.lock
    chown 65534 shut/one.lock
    chmod 644 scripts
    cp "$program" undorc
    printf '#!/bin/sh\nexec setpriv --reuid 65534 --regid 65534 --clear-groups %s/undorc "$@"\n' "$PWD" > nobody
    chmod 755 undorc nobody
    owned=$program
    program=$PWD/nobody
    reports 111 '' 'undorc: Io\n' change -d good -b scripts -x none -l shut/one
    hinted 'shut/one can.t be replaced by shut/one.new: permission denied'
    program=$owned
fi

# The log of a file has a line for each command that altered it, where it is there.
rm -f one
reports 0 'raised good\nok\n' '' change good -b scripts -l one
: > one.log
reports 1 'refused Unknown nobody\n' '' change nobody -b scripts -l one
reports 0 'ok\n' '' change good -b scripts -l one
reports 0 'lowered good\nok\n' '' change -d good -b scripts -l one
reports 2 'failed bad\nok\n' 'up bad: failed 3\n' change bad -b scripts -l one
reports 0 'raised good\nok\n' '' undo -b scripts -l one
reports 0 'ok\n' '' add 'b"' good -b scripts -l one
sed -e "s/ [0-9-]*T[0-9:]*Z uid $(id -u) / /" one.log > out
printf '%s\n' '2 status 0: change -d good -b scripts -l one' '  -good' '1 status 0: undo -b scripts -l one' '  +good' \
    '2 status 0: add "b\"" good -b scripts -l one' > out.wanted
: > err
: > err.wanted
echo 0 > status
judge 'the log of who did what' 0
# The journal with the commands that made its entries, as far as the log tells. The user and the time are left out.
journal_shows() {
    "$program" journal -v -b scripts -l "$2" 2> err | sed -e "s/ [0-9-]*T[0-9:]*Z uid $(id -u) / /" \
        -e "s/ -b scripts -l $2$//" > out
    wants "$3" "${4:-}"
    judge "$1" 0
}
quiet() {
    "$program" "$@" -b scripts -l two > setup 2>&1 || true
}
journal_shows 'the log of a file is shorter than its journal' one \
    'at 2 of 3\n0 +good\n1 b":none>[good]\n  status 0: add "b\\"" good\nok\n'
journal_shows 'a journal without a log' none 'at 0 of 1\nok\n' 'undorc: none does not exist: nothing is up\n'
mkdir none.log
journal_shows 'a log that can not be read' none 'at 0 of 1\nok\n' \
    'undorc: none does not exist: nothing is up\nundorc: none.log: Is a directory (os error 21): it is left out\n'
: > two.log
for words in 'change good' 'stop good' 'start good' undo undo; do
    # The words are separated by spaces.
    # shellcheck disable=SC2086
    quiet $words
done
made='0 +good\n  status 0: change good\n'
journal_shows 'what is undone is still an entry' two \
    "at 1 of 4\n${made}1 -good\n  status 0: stop good\n2 +good\n  status 0: start good\nok\n"
quiet change -d good
journal_shows 'a change replaces what is undone' two "at 2 of 3\n${made}1 -good\n  status 0: change -d good\nok\n"
quiet start good
quiet restart good
quiet change bad good
quiet add some good
quiet undo
quiet redo
made="${made}1 -good\n  status 0: change -d good\n2 +good\n  status 0: start good\n"
edited='3 some:none>[good]\n  status 0: add some good\n'
journal_shows 'a restart, and what moves nothing, are no entries' two "at 4 of 5\n$made${edited}ok\n"
cp two.log aside
sed -i '/^3 .*start good/,+1d' two.log
journal_shows 'lines are missing' two "at 4 of 5\n0 +good\n1 -good\n2 +good\n${edited}ok\n"
sed -e 's/+good/+bad/' aside > two.log
journal_shows 'another log' two \
    "at 4 of 5\n0 +good\n1 -good\n  status 0: change -d good\n2 +good\n${edited}ok\n"
printf '5 x\n\n70000 y z: change a\n1  +good\n\033[m\n4 t\033[m uid 0 status 0: add x\n' > two.log
journal_shows 'a log of other words' two \
    'at 4 of 5\n0 +good\n1 -good\n2 +good\n3 some:none>[good]\n  t\\u{1b}[m uid 0 status 0: add x\nok\n'
cp aside two.log
echo '-d change good' > in
"$program" session -b scripts -l two < in > setup
journal_shows 'a session may have made more than one' two \
    'at 5 of 6\n0 +good\n1 -good\n2 +good\n3 some:none>[good]\n4 -good\nok\n'
: > in
quiet seal
quiet start good
printf 'undorc-live 2\nservices bad good guard\nbound 3\nnow\nend\n' > three
: > three.log
for word in change stop start stop; do
    "$program" "$word" good -b scripts -l three > setup
done
journal_shows 'a full journal drops its first entry' three \
    'at 2 of 3\n0 +good\n  status 0: start good\n1 -good\n  status 0: stop good\nok\n'
: > five.log
for words in 'change good' 'update -B scripts -R good' 'stop good' undo; do
    # The words are separated by spaces.
    # shellcheck disable=SC2086
    "$program" $words -b scripts -l five > setup
done
journal_shows 'an update stands at its border' five \
    'at 4 of 6\n0 +good\n  status 0: change good\n1 -good ..\n2 update ..\n  status 0: update -B scripts -R good\n3 +good\n4 -good\n  status 0: stop good\nok\n'
rm three*
if [ -w /dev/full ]; then
    : > out
    echo 0 > status
    "$program" journal -v -b scripts -l two > /dev/full 2> err || echo $? > status
    wants '' 'undorc: Write\n'
    judge 'a journal that can not be written' 111
fi
echo 0 > status
journal_shows 'a seal begins the journal anew' two 'at 1 of 2\n0 +good\n  status 0: start good\nok\n'

# `status -v` has since when each service is where it is, by that log. What it does not say, as before it began or of a
# move that is not entered there, is not known.
shows_times() {
    "$program" status "$@" | sed -E 's/[0-9]{4}-[0-9]{2}-[0-9]{2}T[0-9]{2}:[0-9]{2}:[0-9]{2}Z/TIME/g' > out
}
shows_times -v -b scripts -l one
grep -q '^good up TIME$' out && grep -q '^bad failed up failed:3 TIME [0-9]* -$' out && echo yes > out
echo yes > out.wanted
judge 'since when services are where they are' 0
mv one.log aside
reports 0 'lowered good\nok\n' '' change -d good -b scripts -l one
mv aside one.log
shows_times -v -b scripts -l one good
echo 'good down -' > out.wanted
judge 'a move that is not entered is not known' 0
reports 0 'raised good\nok\n' '' undo -b scripts -l one
shows_times -b scripts -l one good
echo 'good up' > out.wanted
judge 'status without times' 0

# The file of UNDORC_LIVE has a log from its first command on, also with -q; another file has none.
UNDORC_LIVE=three
export UNDORC_LIVE
reports 0 'raised good\nok\n' '' change -q good -b scripts
reports 0 'lowered good\nok\n' '' stop good -b scripts -l three
reports 0 'raised good\nok\n' '' change good -b scripts -l four
unset UNDORC_LIVE
sed -e "s/ [0-9-]*T[0-9:]*Z uid $(id -u) / /" three.log > out
printf '%s\n' '1 status 0: change -q good -b scripts' '  +good' '2 status 0: stop good -b scripts -l three' '  -good' > out.wanted
judge 'the log of the usual file' 0
: > out.wanted
ls four.log > out 2> told || true
judge 'no log of another file' 0
rm -f three* four*

# Root is told of sources that are links out of their folder, and the file of -o may be read by nobody who may not
# read the sources.
mkdir elsewhere
echo true > elsewhere/up
rm tree/good/up
ln -s ../../elsewhere/up tree/good/up
rm -f made
"$program" compile -o made tree 2> told || true
wants '' ''
: > out
[ "$(id -u)" -ne 0 ] || printf 'undorc: tree/good/up is a link out of its source, to %s/elsewhere/up\n' "$PWD" > out.wanted
cp told out
: > err
echo 0 > status
judge 'root is told of a link' 0
chmod 600 tree/bad/up
stat -c %a made > out
rm -f made
"$program" compile -o made tree 2> told || true
stat -c %a made >> out
chmod 644 made
"$program" compile -o made tree 2> told || true
stat -c %a made >> out
wants '644\n600\n600\n' ''
judge 'a database is no more readable than its sources' 0
chmod 644 tree/bad/up
