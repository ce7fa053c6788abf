# `seal`: the history of a session is forgotten, and all else stays. program.sh reads this file.
mkdir seals
cd seals
cp "$samples/sample.txt" base
: > in

# Three changes and an edit, of which one is undone.
before() {
    rm -f live
    {
        "$program" change net -b base -l live -x none
        "$program" add -b base -l live mine net log
        "$program" change web -b base -l live -x none
        "$program" change -d web -b base -l live -x none
        "$program" undo -b base -l live -x none
    } > setup
}
# same_as WORDS..: what a command shows is what it showed before the seal
same_as() {
    "$program" "$@" -b base -l unsealed > out.wanted
    : > err.wanted
    runs "$@" -b base -l live
    judge "undorc $* after a seal" 0
}
before
cp live unsealed
expect 0 'ok\n' '' '' seal -b base -l live
same_as live
same_as bundles
expect 0 'at 0 of 1\nok\n' '' '' journal -b base -l live
expect 1 'refused NothingToUndo\n' '' '' undo -b base -l live -x none
expect 1 'refused NothingToRedo\n' '' '' redo -b base -l live -x none
# Once more: the file is not written again, and a new change is an entry.
ls -i live > numbered
expect 0 'ok\n' '' '' seal -b base -l live
ls -i live > out
cp numbered out.wanted
: > err
: > err.wanted
echo 0 > status
judge 'a sealed session that is sealed again' 0
expect 0 'lowered web\nok\n' '' '' change -d web -b base -l live -x none
expect 0 'at 1 of 2\n0 -web\nok\n' '' '' journal -b base -l live
expect 0 'raised web\nok\n' '' '' undo -b base -l live -x none

# The bound stays: after a seal there are three states at most.
rm live
printf 'change net\nchange log\n' | "$program" session -n 3 -x none -b base -l live > setup
expect 0 'ok\n' '' '' seal -b base -l live
for name in web db log; do "$program" change -d "$name" -b base -l live -x none > setup; done
"$program" change web -b base -l live -x none > setup
"$program" change -d web -b base -l live -x none > setup
"$program" change web -b base -l live -x none > setup
"$program" journal -b base -l live > setup
wants 'at 2 of 3\n' ''
head -n 1 setup > out
: > err
echo 0 > status
judge 'the bound of a sealed session' 0

# Where no file is there, a session with nothing up is.
rm live
expect 0 'ok\n' '' '' seal -b base -l live
expect 0 'live\nok\n' '' '' live -b base -l live

# A history is sealed with its own database, whatever -b names.
printf '%b' "$none" > other
echo 'bundles 0' > wrong
for named in other wrong missing; do
    before
    told="undorc: $named is not the database of this session: undorc update -b $named -l live carries it over\n"
    [ -e "$named" ] || told=
    expect 0 'ok\n' "$told" '' seal -b "$named" -l live
    expect 0 'live db log net root web\nok\n' '' '' live -b base -l live
    expect 0 'at 0 of 1\nok\n' '' '' journal -b base -l live
done

# What is refused leaves the file alone. It is the text of a session, as `session` makes it.
before
makes_plain live
cp live unsealed
expect 1 '' 'undorc: OtherDb\n' '' seal -b other -l live
expect 1 '' 'undorc: Bad 0\n' '' seal -b wrong -l live
same_as journal
echo strange > live
expect 1 '' 'undorc: Bad 0\n' '' seal -b base -l live
rm live
mkdir live
expect 111 '' 'undorc: Io\n' '' seal -b base -l live
rmdir live
before
makes_plain live
expect 111 '' 'undorc: Io\n' '' seal -b missing -l live
expect 0 'ok\n' '' '' seal -b base -l live
first_line_is live 'undorc-history 1'

# The lock is taken, and what a command that was cut short has moved is entered first.
before
exec 7>> live.lock
flock 7
expect 111 '' 'undorc: Busy\n' '' seal -b base -l live
exec 7>&-
before
session_text live > live.run
printf -- '-t 1 -d change web\ntake 1 web\ndone 1 web ok\n' >> live.run
expect 0 'ok\n' 'undorc: Recovered\n' '' seal -b base -l live
expect 0 'live db log net root\nok\n' '' '' live -b base -l live
expect 0 'at 0 of 1\nok\n' '' '' journal -b base -l live

# FILE must be named, and a database where FILE has none; nothing else may be.
wrong seal
says '^undorc: -l is missing'
wrong seal -b base
cp live plain
makes_plain plain
wrong seal -l plain
says '^undorc: this command wants -b, or UNDORC_DB: plain has no database$'
expect 0 'ok\n' '' '' seal -l live
wrong seal -b base -l live web
wrong seal -b base -l live -x none
UNDORC_DB=base UNDORC_LIVE=live expect 0 'ok\n' '' '' seal
cd ..
