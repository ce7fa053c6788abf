# Memory that is refused, growth after growth, and threads that can't be started. program.sh
# reads this file; tests/lib/refuse.c refuses.
may_be_unchecked 'each allocation and thread refused' || return 0
works_in memory
printf '%b' "$sample" > base
preloads refuse
# How many growths at the front are those of another command, too, and are left out.
from=0
file=''
export ARMED=0

# each LEAST ENDS OPTIONS WORDS..: one growth after the other is refused, alone and then with all that follow, until
# a run comes to no such growth: LEAST runs of each way at least. ENDS are the lines of how they end. OPTIONS are
# words for tests/lib/refusals.py.
each() {
    least=$1 ends=$2 options=$3
    shift 3
    # shellcheck disable=SC2086
    all_end "$ends" "undorc $*, with each growth refused" ways=GROWTH,GROWTHS "from=$from" "least=$least" \
        faults=Memory,NoThread "file=$file" $options -- "$@"
}

# Commands that answer at once: where memory is refused nothing is written.
memory='111 undorc: Memory\n'
ample='0\n'
at_once() {
    "$program" "$@" < in > whole.none
    each $((from > 0 ? 20 : 150)) "$ample$memory" alone "$@"
}
: > in
at_once compile "$samples/source"
at_once db -b base all-dependencies web
for words in 'contents site' 'script net' dot; do
    # shellcheck disable=SC2086
    at_once db -b base $words
done
printf '%b' "${sample}root\n" > in
at_once plan -u site
from=150
at_once db check
from=180
printf 'root\n' > in
at_once plan -b base -up site
from=190
for words in 'list all' 'pipeline web' 'atomics site net' '-d dependencies root'; do
    # shellcheck disable=SC2086
    at_once db -b base $words
done
from=0
printf '%s\n' 'change log' 'take 1 log' 'done 1 log ok' 'change net' 'take 1 root' 'add both log' undo > in
at_once replay -b base

# What is live fills a picture; its file is only read.
echo 'change web' > in
begins_at session -b base -x none
: > in
"$program" db -b base -l text.none.0 dot > whole.none
from=220 file=file
each 20 "$ample$memory" 'alone kept' db -b base dot

# A database for a file, which has the old text or the new one, and files that are not looked at.
mkdir -p tree/a
echo oneshot > tree/a/type
echo true > tree/a/up
: > tree/a/nothing
from=0
"$program" compile -v tree > text.none.1 2> whole.err
: > whole.none
cp text.none.1 text.none.0.then
cp base text.none.0
each 150 "$ample$memory" 'alone kept notes keeps=-o' compile -v tree
file=''
rm -r tree text.*

# Commands that are refused. Of the lines that help behind the first one some may be missing.
at_fault() {
    status=0
    "$program" "$@" < in > whole.none 2> whole.err || status=$?
    each 10 "$status\n$memory" "told=$status lanes=$lanes" "$@"
}
lanes=4
: > in
# entry NAME TYPE FILE WORDS..: a definition in the folder `tree`
entry() {
    mkdir -p "tree/$1"
    echo "$2" > "tree/$1/type"
    [ "$2" != oneshot ] || echo true > "tree/$1/up"
    where=tree/$1/$3
    shift 3
    printf '%s\n' "$@" > "$where"
}
entry a oneshot dependencies b
entry b oneshot dependencies c
entry c oneshot dependencies a
from=150
at_fault compile tree
entry c bundle contents d
entry d bundle contents c
rm tree/c/up
at_fault compile tree
entry d bundle contents nosuch
at_fault compile tree
rm -r tree
from=190
at_fault db -b base contents web
at_fault db -b base script roof
from=140
at_fault db -b nosuch check
from=180
printf '%b' "$sample" | sed 's/^needs root/needs roof/' > bad
at_fault db -b bad check
echo web > in
at_fault plan -b base -u site
at_fault plan -b base -u sites
printf '%s\n' 'change log' 'takes 1 log' > in
at_fault replay -b base
at_fault session -b base -x up:logs
printf '%s\n' 'undorc-live 1' 'states 2' > live
lanes=1
at_fault session -b base -l live
lanes=4
rm live bad
from=120
at_fault plan -u -d site
at_fault plans
from=0

# Sessions that start nothing: lines of all kinds, refused ones among them. On file is the session
# after the lines that were answered, or after one more.
no_thread='111 undorc: NoThread\n'
printf '%s\n' '-u change web' 'add -f both log net' undo > in
begins_at session -b base -x down:log
printf '%s\n' 'change both nosuch' '-t 9 redo' '-da dry log' 'add site log' 'delete both' \
    undo 'add more net' 'delete more site' '-d change net' live bundles journal > in
expects none
ARMED=1 file=link
each 200 "$ample$memory$no_thread" 'answers kept' session -b base -w 2 -x none

# Scripts. One for whose start there is no memory is told as not started, and all that goes on is as
# where it fails in another way. Else no script of a line runs that is refused as out of memory
# before it begins, and each of a line that is refused after that; none runs twice.
three_scripts
rm text.* whole.*
: > in
begins_at session -b base
printf '%s\n' 'change b c' undo > in
expects none
file='file'
each 150 "$ample$memory$no_thread" 'answers scripts kept' session -b base -P -w 2

# A session that is not there yet: where its file could not be made nothing is answered.
printf '%s\n' 'add both a c' 'delete both' > in
expects none
ARMED=0
each 200 "$ample$memory" 'answers kept fresh' session -b base

# Each start of a thread is refused. Nothing of the change was moved then, whatever was started before.
# Of the workers, of whom no more work than the three services that move, one is no thread of its own.
printf '%s\n' 'change b c' undo > in
expects none
for workers in 1 2 3 4; do
    threads=$((workers < 3 ? workers - 1 : 2))
    refusing ways=THREAD "runs=$((2 * threads + 1))" faults=NoThread file=file answers scripts kept \
        -- session -b base -P -w "$workers"
done > said
sort -u said > out
: > err
echo 0 > status
wants "$ample$no_thread" ''
judge 'a session of scripts, with each start of a thread refused' 0

# A session within a bound of its own, whose line is full before its last edit.
rm text.* whole.*
: > in
begins_at session -b base -n 3
printf '%s\n' 'add both a c' 'delete both' 'add both b' undo > in
expects none
each 200 "$ample$memory" 'answers kept fresh' session -b base -n 3

# One-shot commands on a file: as a session of the one line, or, of those that only show something and
# have no line, as what they write where nothing is refused, with the file left alone. Of the entries that an undo or a redo
# names there some may be missing. The text of a session becomes a history before anything moves.
one_shot() {
    shown=$1
    shift
    printf '%s\n' "$shown" > in
    expects none
    : > in
    : > whole.err
    if [ -z "$shown" ]; then
        "$program" "$@" -b base -l text.none.0 > whole.none 2> whole.err
        cp text.none.0 text.none.1
    elif [ "$(head -n 1 text.none.0)" = 'undorc-live 2' ]; then
        history_of stop text.none.0 > text.none.0.then
        history_of stop text.none.1 > made
        mv made text.none.1
    fi
    each $((from > 0 ? 20 : 100)) "$ample$memory" 'answers kept notes' "$@" -b base
    rm -f text.none.0.then
}
rm text.* whole.*
printf '%s\n' 'change a c' 'change b' undo > in
begins_at session -b base -x none
one_shot 'change b' change b -x down:c,up:c
mv text.none.0 plain
history_of stop plain > text.none.0
one_shot 'change b' change b -x down:c,up:c
mv plain text.none.0
one_shot undo undo -x none -w 1
one_shot '' undo -n
one_shot '' redo -n
one_shot '' journal
from=200
one_shot redo redo -x none
one_shot '' change -n b
one_shot '' live

# A history that is sealed: on file is the text before, or that after.
cp text.none.0 live
"$program" seal -b base -l live > whole.none
mv live text.none.1
each $((from > 0 ? 20 : 100)) "$ample$memory" 'answers kept' seal -b base

# A restart. On file is the text before, alone and in a history; that without the service, which is passed; and that in a
# history again.
cp text.none.0 live
"$program" restart a -b base -x none -l live > whole.none
mv live text.none.2
cp text.none.0 live
"$program" change -D a -b base -x none -l live > made
history_of passed live > text.none.1
history_of stop text.none.0 > text.none.0.then
each $((from > 0 ? 20 : 100)) "$ample$memory" 'answers kept' restart a -b base -x none
rm text.none.0.then live

# Where services stand, by the file and the log of a run: both are only read, and the answer is whole, or
# nothing is written.
rm text.none.[12]
cp text.none.0 log
printf '%s\n' '-t 1 -u change b' 'take 1 b' >> log
stands() {
    ends=$1
    shift
    cp text.none.0 live
    cp log live.run
    "$program" "$@" -b base -l live > whole.none || echo $? > status.none
    rm live live.run
    each $((from > 0 ? 20 : 100)) "$ends" 'alone kept log=log' "$@" -b base
}
stands "$ample$memory" status
stands "${memory}3\\n" status b c
rm status.none

# What starts scripts is made before the first line of a session is read.
echo 'change b' > in
expects none
each 20 "$ample$memory" 'answers kept scripts' session -b base -P -w 1

# An update that lowers a service and raises it again. On file is one of the texts in turn: that before, alone and in a
# history; by the old database without the service; by the new one without it, and with it, at first as a state that is passed.
rm text.* whole.*
sed '/^service b /{n;s/^needs a$/needs/;}' base > new
: > in
for at in 0 1 1.then 2; do
    [ "$at" = 0 ] || cp text.none.0 live
    case $at in
        0) "$program" change a b c -b base -x none -l live && makes_plain live ;;
        1) "$program" change -D b -b base -x none -l live ;;
        1.then) "$program" update -b base -B new -x up:b -l live || [ $? -eq 2 ] ;;
        2) "$program" update -b base -B new -x none -l live > whole.none ;;
    esac > made
    cp live "text.none.$at"
done
history_of stop text.none.0 > text.none.0.then
history_of passed text.none.1 > live
mv live text.none.1
sed 's/^generation passed stop$/generation passed passed/' text.none.2 > text.none.2.then
each 200 "$ample$memory" 'answers kept' update -b base -B new -x none

# The same by scripts. Where the one that lowers can't be started nothing is done by the new database.
for key in down:b up:b; do
    cp text.none.0 live
    "$program" update -b base -B new -x "$key" -l live > "whole.$key" || echo $? > "status.$key"
    cp text.none.0 "text.$key.0"
    cp text.none.0.then "text.$key.0.then"
    mv live "text.$key.1"
done
mv text.up:b.1 text.up:b.2
cp text.none.1 text.up:b.1
cp text.none.1.then text.up:b.1.then
from=150
each 100 "$ample${memory}2\\n" 'answers kept scripts' update -b base -B new -v

# Where it is only shown the file is left alone.
rm text.none.*.then
for at in 1 2; do cp text.none.0 "text.none.$at"; done
cp text.none.0 live
"$program" update -b base -B new -l live -n -q > whole.none
each 20 "$ample$memory" 'answers kept' update -b base -B new -n -q
from=0
unset ARMED
worked_in
