# The lock of the file of `session -l`: one program at a time. program.sh reads this file.
# shellcheck source=../trees.sh
. "$here/trees.sh"
mkdir locks
cd locks
names='s0 s1 s2 s3 s4 s5 s6 s7 s8 s9'
begin_tree
for name in $names; do oneshot "$name" 'sleep 0.1'; done
"$program" compile tree > base

# one HOW NAME WORDS..: a session of one line that brings up this service, or the command of that line
one() {
    how=$1 service=$2
    shift 2
    case $how in
        session) echo "change $service" | "$program" session -b base -l live "$@" ;;
        command) "$program" change "$service" -b base -l live "$@" < /dev/null ;;
    esac
}
# ten_at_once HOW WORDS..: ten of them at once; each leaves its answer, what it told and its status
ten_at_once() {
    rm -f live ./*.out ./*.err ./*.status
    how=$1
    shift
    for name in $names; do
        { echo 0 > "$name.status"; one "$how" "$name" "$@" > "$name.out" 2> "$name.err" || echo $? > "$name.status"; } &
    done
    wait
}
# found: the states of `live` as the names that came up, one after the other, in the order of the journal
found() {
    "$program" journal -b base -l live | sed -n 's/^[0-9]* +//p'
}

for how in session command; do
    # Ten that wait are all done, one after the other, in some order.
    ten_at_once "$how" -W
    for name in $names; do
        printf 'raised %s\nok\n' "$name" | cmp -s - "$name.out" || echo "$name: another answer"
        # Who waits for more than a second tells so.
        grep -vx 'undorc: waits for the command that has live' "$name.err" || true
        [ "$(cat "$name.status")" -eq 0 ] || echo "$name: status $(cat "$name.status")"
    done > out
    found | sort | tr '\n' ' ' >> out
    echo >> out
    : > err
    echo 0 > status
    wants "$names \\n" ''
    judge "ten at once that wait for the file, each a $how" 0

    # Of ten that do not wait each is done, or it is told that the file is in use, and then it did nothing.
    ten_at_once "$how"
    found | sort > moved
    for name in $names; do
        case $(cat "$name.status") in
            0) printf 'raised %s\nok\n' "$name" | cmp -s - "$name.out" && [ ! -s "$name.err" ] && grep -qx "$name" moved || echo "$name: done otherwise" ;;
            111) [ ! -s "$name.out" ] && [ "$(firsts "$name.err")" = 'undorc: Busy' ] && ! grep -qx "$name" moved || echo "$name: refused otherwise" ;;
            *) echo "$name: status $(cat "$name.status")" ;;
        esac
    done > out
    [ -s moved ] || echo 'none was done' >> out
    wants '' ''
    judge "ten at once that do not wait for the file, each a $how" 0
done

# busy WHAT FILE: another session has it; nothing of the input is read, and nothing is done
busy() {
    echo 'change s2' > in
    wants '' 'undorc: Busy\n'
    echo 0 > status
    { "$program" session -b base -x none -l "$2" > out 2> err || echo $? > status; cat > rest; } < in
    cmp -s in rest || echo 'the input was read' >> err
    judge "$1" 111
}
# A session has the file from before it reads it to its end, by whatever name; one that waits goes on from its end.
rm -f live
mkdir way
ln -s ../live way/other
ln -s live again
begins -b base -x none -l live
tell 'change s1'
hear
cp out heard
busy 'a file that another session has' live
busy 'the same by its whole path' "$PWD/live"
busy 'the same by links' again
busy 'the same by links through a folder' way/other
expect 111 '' 'undorc: Busy\n' '' change s2 -b base -x none -l live
expect 111 '' 'undorc: Busy\n' '' undo -b base -x none -l live
# Who has it is named.
"$program" undo -b base -x none -l live < /dev/null > out 2> told || true
read -r owner _ < live.lock
grep -cx "  process $owner goes on with live" told > out
tr '\0' ' ' < "/proc/$owner/cmdline" | grep -o 'session -b base -x none -l live' >> out
wants '1\nsession -b base -x none -l live\n' ''
: > err
echo 0 > status
judge 'who has the file is named' 0
# A lock that others could open is its owner's alone from the next command on.
chmod 666 other.lock 2> /dev/null || : > other.lock
expect 0 'raised s2\nok\n' '' '' change s2 -b base -x none -l other
stat -c %a other.lock > out
wants '600\n' ''
judge 'the rights of an older lock' 0
rm -f other other.lock
# Who only looks takes no lock: it finds what was answered last.
expect 0 'live s1\nok\n' '' '' live -b base -l way/other
expect 0 'at 1 of 2\n0 +s1\nok\n' '' '' journal -b base -l live
expect 0 'raise s3\nok\n' '' '' change -n s3 -b base -l live
expect 0 'lower s1\nok\n' 'undorc: takes back 0 +s1\n' '' undo -n -b base -l live
expect 1 'refused NothingToRedo\n' '' '' redo -n -b base -l live
printf 'change s3\nlive\n' > waiting
"$program" session -b base -x none -l way/other -W < waiting > waited 2>&1 3>&- 4<&- &
sleep 0.3
cp waited out
: > err
echo 0 > status
wants '' ''
judge 'a session that waits answers nothing yet' 0
exec 3>&-
cat <&4 > out
exec 4<&-
wait
wants 'raised s1\nok\nraised s3\nok\nlive s1 s3\nok\n' ''
cat heard waited > out
judge 'a session that waits goes on from the end of the other' 0
wants '600 live.lock\n' ''
stat -c '%a %n' ./*.lock way/*.lock 2> /dev/null | sed 's|\./||' > out
judge 'one lock, which is its owner'"'"'s alone and stays' 0

# A link that leads nowhere yet has the lock of where it leads.
rm -f live again
ln -s live again
begins -b base -x none -l again
tell live
hear
busy 'a file that was made where a link leads' live
exec 3>&-
cat <&4 > out
exec 4<&-
wait

# A session that is killed holds no lock any more, though its script goes on; nor does what a script leaves behind.
begin_tree
oneshot s1 'echo $$ > child; exec sleep 20'
"$program" compile tree > slow
begin_tree
oneshot s1 'sleep 20 & echo $! > child'
"$program" compile tree > leaves
for base in slow leaves; do
    rm -f live child
    echo 'change s1' > in
    ended=0
    "$program" session -b "$base" -l live -P < in > out 2> err &
    killed=$!
    for turn in $(seq 100); do
        [ ! -s child ] || break
        sleep 0.05
    done
    [ "$base" = leaves ] || kill -KILL "$killed"
    wait "$killed" 2> /dev/null || ended=$?
    echo live > in
    if [ "$base" = slow ]; then
        # A session would wait for the script.
        wants 'live\nok\n' 'undorc: a command was cut short: the next one enters what it has moved\n'
        runs live -b "$base" -l live
    else
        wants 'live s1\nok\n' ''
        runs session -b "$base" -x none -l live
    fi
    kill -0 "$(cat child)" || echo 'the script has ended' >> err
    [ "$ended" -eq 0 ] || [ "$ended" -eq 137 ] || echo "it ended with $ended" >> err
    judge "a lock is gone with its session, while a script goes on ($base)" 0
    kill "$(cat child)"
done
base=

# A lock is not taken where no session is kept, and none of the program's streams is the locked file.
expect 111 '' 'undorc: Io\n' '' session -b slow -x none -l .
expect 111 '' 'undorc: Io\n' '' session -b slow -x none -l ''
expect 111 '' 'undorc: Io\n' '' session -b slow -x none -l nowhere/live
expect 111 '' 'undorc: Io\n' '' session -b slow -x none -l /dev/null
find . /dev -maxdepth 1 -name '*.lock' ! -name live.lock > out
: > err
echo 0 > status
wants '' ''
judge 'no lock where no session is kept' 0
rm -f live
echo 'change s1' > in
echo 0 > status
"$program" session -b slow -x none -l live <&- > out 2> err || echo $? > status
wants '' 'undorc: Read\n'
judge 'a kept session whose input is closed' 111
echo 0 > status
"$program" session -b slow -x none -l live < in >&- 2> err || echo $? > status
: > out
wants '' 'undorc: Write\n'
judge 'a kept session whose output is closed' 111
rm -f live live.lock
echo 0 > status
"$program" session -b slow -x none -l live -P < in 2>&- > out || echo $? > status
: > err
wants 'raised s1\nok\n' ''
judge 'a kept session whose standard error is closed' 0
wants '1\n' ''
grep -cxE '[0-9]+ [0-9]+ lines' live.lock > out
[ "$(wc -l < live.lock)" -eq 1 ] || echo 'more than a name' >> out
judge 'the locked file names its owner and nothing else' 0

# Whoever holds the lock: a look needs none, and a session is refused, or waits.
if ! command -v flock > /dev/null; then
    skip 'a lock of another program, flock (the package util-linux)'
else
    for kind in -s -x; do
        rm -f free
        flock "$kind" live.lock sh -c 'until [ -e free ]; do sleep 0.05; done' &
        for turn in $(seq 100); do
            flock -n -x live.lock true || break
            sleep 0.05
        done
        expect 0 'live s1\nok\n' '' '' live -b slow -l live
        expect 111 '' 'undorc: Busy\n' 'live\n' session -b slow -x none -l live
        { sleep 0.2; : > free; } &
        expect 0 'live s1\nok\n' '' 'live\n' session -b slow -x none -l live -W
        wait
    done
fi

# What stands at FILE.lock and is no plain file: a link is not followed, and a pipe not waited for.
rm -f live live.lock
ln -s elsewhere live.lock
expect 111 '' 'undorc: Io\n' 'live\n' session -b slow -x none -l live
expect 111 '' 'undorc: Io\n' '' change -b slow -x none -l live s1
rm live.lock
mkfifo live.lock
expect 111 '' 'undorc: Io\n' 'live\n' session -b slow -x none -l live
rm live.lock
mkdir live.lock
expect 111 '' 'undorc: Io\n' '' change -b slow -x none -l live s1
rmdir live.lock
wants '' ''
find . -name elsewhere -o -name live > out
: > err
echo 0 > status
judge 'nothing is made where no lock can be had' 0
cd ..
rm -r locks
