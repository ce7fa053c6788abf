# `undo --to`: back to a state of the journal, by one undo after the other. program.sh reads this file.
# shellcheck source=../trees.sh
. "$here/trees.sh"
mkdir back
cd back
cp "$samples/sample.txt" base
printf '%b' "$none" > other
: > in
# goes_back STATUS OUTPUT TOLD WORDS..: an undo to a state on this session
goes_back() {
    ends=$1 output=$2 fault=$3
    shift 3
    expect "$ends" "$output" "$fault" '' undo -b "${database:-base}" -l live "$@"
}
# journal_is ENTRIES: the journal says this
journal_is() {
    expect 0 "$1ok\n" '' '' journal -b base -l live
}
# leaves_alone STATUS OUTPUT TOLD WORDS..: the same, which leaves the text of the session as it was
leaves_alone() {
    cp live before
    goes_back "$@"
    wants '' ''
    cmp live before > out 2>&1 || true
    : > err
    echo 0 > status
    judge "undo $* leaves the session" 0
}
entries='0 +net +root\n1 +db\n2 -db -net\n3 +db +log +net +web\n'
for names in net db '-d net' web; do
    # Several words stand in one.
    # shellcheck disable=SC2086
    "$program" change $names -b base -l live -x none > setup
done
cp live four

# The current state is one to go back to, and nothing moves. A later state and one that is not there are none.
leaves_alone 0 'ok\n' '' --to 4 -x none
leaves_alone 0 'ok\n' '' --to +4 -x none
leaves_alone 1 '' 'undorc: NoState 5\n' --to 5 -x none
leaves_alone 1 '' 'undorc: NoState 4294967295\n' --to 4294967295 -x none
# One undo after the other, each with its answer.
goes_back 0 'lowered db log net web\nok\n' '' --to 3 -x none
journal_is "at 3 of 5\n$entries"
leaves_alone 1 '' 'undorc: NoState 4\n' --to 4 -x none
goes_back 0 'raised db net\nok\nlowered db\nok\n' '' --to=1 -x none -t 5000
journal_is "at 1 of 5\n$entries"
goes_back 0 'lowered net root\nok\n' '' --to 0 -x none -w 64
journal_is "at 0 of 5\n$entries"
# What was undone is there for redos, and the file is what so many undos make of it.
cp live undone
cp four live
for turn in 1 2 3 4; do "$program" undo -b base -l live -x none > setup; done
wants '' ''
cmp live undone > out 2>&1 || true
: > err
echo 0 > status
judge "as $turn undos" 0
expect 0 'raised net root\nok\n' '' '' redo -b base -l live -x none

# It stops at the first undo that is not all done, with what that leaves.
cp four live
goes_back 2 'lowered db log net web\nok\nraised net\nfailed db\nok\n' '' --to 0 -q -x up:db
journal_is 'at 3 of 6\n0 +net +root\n1 +db\n2 -db\n3 -net\n4 +db +log +net +web\n'
# A longrun without a controller: whichever undo would move it, nothing moves.
cp four live
leaves_alone 1 '' 'undorc: NoController db\n' --to 1
"$program" undo -b base -l live -x none > setup
"$program" change -D root -b base -l live -x none > setup
"$program" change root -b base -l live -x none > setup
leaves_alone 1 '' 'undorc: NoController db\n' --to 2 -q

# What is wrong with the texts is told first. No file: nothing is up, and there is one state.
session_text four > live
database=other leaves_alone 1 '' 'undorc: OtherDb\n' --to 4 -x none
database=live leaves_alone 1 '' 'undorc: Bad 0\n' --to 4 -x none
# A history has its own database, whatever -b names.
cp four live
not_base() {
    printf 'undorc: %s is not the database of this session: undorc update -b %s -l live carries it over' "$1" "$1"
}
database=other leaves_alone 0 'ok\n' "$(not_base other)\n" --to 4 -x none
database=live leaves_alone 0 'ok\n' "$(not_base live)\n" --to 4 -x none
database=other goes_back 0 'lowered db log net web\nok\n' "$(not_base other)\n" --to 3 -x none
# The text of a session becomes a history of one database, with the same states.
cp four live
"$program" undo --to 2 -b base -l live -x none > setup
cp live went
session_text four > live
goes_back 0 'lowered db log net web\nok\nraised db net\nok\n' '' --to 2 -x none
first_line_is live 'undorc-history 1'
wants '' ''
cmp live went > out 2>&1 || true
: > err
echo 0 > status
judge 'a session that goes back, and becomes a history' 0
journal_is "at 2 of 5\n$entries"
expect 1 '' 'undorc: Bad 0\n' '' undo --to 0 -b base -l base -x none
# A session alone stays one until an undo changes it, and a missing file is not made.
session_text four > live
leaves_alone 0 'ok\n' '' --to 4 -x none
leaves_alone 1 '' 'undorc: NoState 5\n' --to 5 -x none
leaves_alone 2 'failed web\nblocked db log net\nok\n' '' --to 0 -q -x down:web
rm live
goes_back 0 'ok\n' '' --to 0 -x none
goes_back 1 '' 'undorc: NoState 1\n' --to 1 -x none
wants 'none\n' ''
{ [ -e live ] || echo none; } > out
: > err
echo 0 > status
judge 'an undo to a state makes no file' 0
expect 111 '' 'undorc: Io\n' '' undo --to 0 -b base -l . -x none
# Command lines.
cp four live
wrong undo --to -b base -l live
wrong undo --to x -b base -l live
wrong undo --to -1 -b base -l live
wrong undo --to 4294967296 -b base -l live
wrong undo --to 1 --to 1 -b base -l live
wrong undo --to 1 -n -b base -l live
session_text four > plain
wrong undo --to 1 -l plain -x none
says '^undorc: this command wants -b, or UNDORC_DB: plain has no database$'
expect 1 '' 'undorc: NoState 9\n' '' undo --to 9 -l live -x none
wrong undo --to 1 -b base -x none
wrong undo --to 1 1 -b base -l live
wrong redo --to 1 -b base -l live
wrong change --to 1 -b base -l live
UNDORC_DB=base UNDORC_LIVE=live expect 1 '' 'undorc: NoState 9\n' '' undo --to 9
UNDORC_DB=base UNDORC_LIVE=live wrong undo --to 1 -x none

# The states of all databases in a file count. An undo to a state goes back across updates, and to no state that is only
# passed.
database=new
rm -f live live.*
sed 's/^true$/exit/' base > new
"$program" change net -b base -l live -x none > setup
"$program" update -b base -B new -R net -l live -x none > setup 2>&1
"$program" change db -l live -x none > setup
"$program" change log -l live -x none > setup
entries='0 +net +root\n1 -net ..\n2 update ..\n3 +net\n4 +db\n5 +log\n'
told() {
    expect 0 "$1ok\n" '' '' journal -l live
}
told "at 6 of 7\n$entries"
cp live six
leaves_alone 0 'ok\n' '' --to 6 -x none
leaves_alone 1 '' 'undorc: NoState 7\n' --to 7 -x none
leaves_alone 1 '' 'undorc: NoState 3\n' --to 3 -x none
leaves_alone 1 '' 'undorc: NoState 2\n' --to 2 -x none
goes_back 0 'lowered log\nok\nlowered db\nok\n' '' --to 4 -x none
told "at 4 of 7\n$entries"
expect 0 'lowered net\nok\nraised net\nok\n' '' '' undo -l live -x none
told "at 1 of 7\n$entries"
expect 0 'lowered net\nok\nraised net\nok\n' '' '' redo -l live -x none
told "at 4 of 7\n$entries"
cp six live
goes_back 0 'lowered log\nok\nlowered db\nok\nlowered net\nok\nraised net\nok\nlowered net root\nok\n' '' --to 0 -x none
told "at 0 of 7\n$entries"
database=base leaves_alone 0 'ok\n' '' --to 0 -x none
# It stops within an update, and the next undo goes on from there.
cp six live
goes_back 2 'lowered log\nok\nlowered db\nok\nlowered net\nok\nfailed net\nok\n' '' --to 1 -q -x up:net
told "at 2 of 7\n$entries"
leaves_alone 0 'raise net\nok\n' "$(not_base new)\nundorc: takes back 1 -net\n" -n
expect 0 'raise net\nok\n' 'undorc: makes again 2 update\nundorc: makes again 3 +net\n' '' redo -n -l live
goes_back 0 'raised net\nok\n' "$(not_base new)\n" --to 1 -x none
# The text of the present database can't be read: nothing is shown, and nothing moves. Or that of another one: the undos
# end where they would cross to it.
sed 's/^service db longrun/service db longfun/' six > live
expect 1 '' 'undorc: Bad 23\n' '' journal -l live
cp live six.bad
expect 1 '' 'undorc: Bad 23\n' '' undo --to 1 -x none -l live
wants '' ''
cmp live six.bad > out 2>&1 || true
: > err
echo 0 > status
judge 'a file whose text is bad, behind an undo' 0
sed '0,/^service db longrun/s//service db longfun/' six > live
expect 1 '' 'undorc: NotJoined 1\n' '' journal -l live
# An undo inside the present database is shown all the same, and its entry is not named.
expect 0 'lower log\nok\n' '' '' undo -n -l live
goes_back 2 'lowered log\nok\nlowered db\nok\n' 'undorc: NotJoined 1\n' --to 1 -x none
sed '0,/^now/s//nox/' six > live
expect 1 '' 'undorc: NotJoined 1\n' '' journal -l live
expect 1 '' 'undorc: NotJoined 1\n' '' undo --to 4 -x none -l live
# Without a database before it, an undo stops on the first state.
cp six live
"$program" undo -l live -x none > setup
"$program" seal -l live > setup
"$program" change log -l live -x none > setup
goes_back 0 'lowered log\nok\n' '' --to 0 -x none
database=

# A command that goes back has one line in FILE.log, with what moved in all.
rm -f live live.*
: > live.log
for names in net db log; do "$program" change "$names" -b base -l live -x none > setup; done
goes_back 0 'lowered log\nok\nlowered db\nok\n' '' --to 1 -x none
wants '1 TIME status 0: undo -b base -l live --to 1 -x none\n  -db -log\n' ''
tail -n 2 live.log | sed -E 's/ [0-9]{4}-.*Z uid [0-9]+ / TIME /' > out
: > err
echo 0 > status
judge 'the log of a command that goes back' 0

# With real scripts: a command that is killed in its second undo is entered by the next one.
begin_tree
oneshot one 'true'
oneshot two 'true'
down two ': > begun; until [ -e go ]; do sleep 0.02; done; : > ended'
oneshot three 'true'
"$program" compile tree > base
rm -f live live.*
for names in one two three; do "$program" change "$names" -b base -l live > setup; done
"$program" undo --to 0 -b base -l live < /dev/null > /dev/null 2>&1 &
killed=$!
for turn in $(seq 250); do
    [ ! -e begun ] || break
    sleep 0.02
done
kill -KILL "$killed"
wait "$killed" 2> /dev/null || true
: > go
for turn in $(seq 250); do
    [ ! -e ended ] || break
    sleep 0.02
done
sleep 0.2
expect 0 'lowered two\nok\nlowered one\nok\n' 'undorc: Recovered\n' '' undo --to 0 -b base -l live
cd ..
