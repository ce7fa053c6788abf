# A command that is cut short: its run log, and what the next command enters of it; and one that is called off.
# program.sh reads this file.
# shellcheck source=../trees.sh
. "$here/trees.sh"
mkdir recovery
cd recovery

# Two services that come up at once, `slow`, which needs them and waits for the file `go`, and one above that.
begin_tree
oneshot a 'echo up a >> ran'
down a 'echo down a >> ran'
oneshot b 'echo up b >> ran'
oneshot slow 'echo begun > begun; until [ -e go ]; do sleep 0.02; done; echo up slow >> ran' a b
oneshot top 'echo up top >> ran' slow
"$program" compile tree > base
begin_tree
oneshot other 'true'
"$program" compile tree > foreign

# shown FILE..: the files as what was written, judged
shown() {
    cat "$@" > out
    : > err
    echo 0 > status
}
# until_begun: waits until `slow` has begun, and the run log names its process
until_begun() {
    for turn in $(seq 1000); do
        if [ -s begun ] && grep -qs '^# process slow ' live.run; then return 0; fi
        sleep 0.02
    done
    echo 'slow did not begin' >> err
}
# slow_goes_on: lets `slow` go on, and waits until its process has ended
slow_goes_on() {
    : > go
    process=$(sed -n 's/^# process slow \([0-9]*\) .*/\1/p' live.run | tail -n 1)
    for turn in $(seq 1000); do
        grep -qs '^State:.[^XZ]' "/proc/$process/status" || return 0
        sleep 0.02
    done
    echo 'slow did not end' >> err
}
# cut SIGNAL WORDS..: a command that this signal ends while `slow` is under way
cut() {
    rm -f begun go
    signal=$1
    shift
    env --default-signal=HUP --default-signal=INT --default-signal=QUIT "$program" "$@" -b base -l live < /dev/null > cut.out 2> cut.err &
    killed=$!
    until_begun
    kill "-$signal" "$killed"
    wait "$killed" 2> /dev/null || true
    slow_goes_on
}
# scripts_ran WHAT LINES: what the scripts did
scripts_ran() {
    wants "$2" ''
    shown ran
    judge "$1" 0
}

# lines_of LOG: it without the room that is reserved behind its lines, and without the names of processes
lines_of() {
    sed -e '/^ *$/d' -e '/^# process /d' "$1"
}

for signal in KILL TERM INT HUP QUIT; do
    rm -f live ran
    cut "$signal" change -w 1 b top
    # The log is the text of the session, the step under the least limit, and the events.
    lines_of live.run | sed '1,/^end$/d' > log
    wants '-t 1 -u change b top\ntake 1 a\ndone 1 a ok\ntake 1 b\ndone 1 b ok\ntake 1 slow\n' ''
    shown log
    judge "the run log of a change that $signal ends" 0
    # Who only looks is told, and finds FILE as it was.
    expect 0 'live\nok\n' 'undorc: a command was cut short: the next one enters what it has moved\n' '' live -b base -l live
    # The next command enters it first, and then does its own.
    expect 0 'at 1 of 2\n0 +a +b\nok\n' 'undorc: Recovered\n' 'journal\n' session -b base -l live -x none
    expect 0 'live a b\nok\n' '' '' live -b base -l live
    wants '' ''
    find . -name 'live.*' ! -name live.lock ! -name live.failed > out
    : > err
    echo 0 > status
    judge 'a log that was entered is gone' 0
    # An undo takes back exactly that.
    expect 0 'lowered a b\nok\n' '' '' undo -w 1 -b base -l live
done

# What is reported: the lines of a report, each behind two spaces.
rm -f live ran
cut KILL change -w 1 b top
echo 0 > status
"$program" change -b base -l live < /dev/null > out 2> told || echo $? > status
cp told err
printf 'undorc: Recovered\n  raised a b\n  failed slow\n  blocked top\n' > told.wanted
cmp -s told told.wanted || cat told >> out
wants 'ok\n' 'undorc: Recovered\n'
judge 'a recovery reports what was moved' 0
# The same command again completes. What the killed one had begun has gone on, and has ended.
: > ran
expect 0 'raised slow top\nok\n' '' '' change -w 1 b top -b base -l live
scripts_ran 'the same command again' 'up slow\nup top\n'

# A run that was cut short before all was tried counts as stopped.
rm -f live ran
cut KILL change -w 1 top
printf 'ok\n' > out.wanted
lines_of live.run | sed '1,/^end$/d; /^take 1 slow$/d' > log
sed '/^end$/q' live.run > text
cat text log > live.run
expect 0 'ok\n' 'undorc: Recovered\n' '' change -b base -l live
expect 0 'at 1 of 2\n0 +a +b\nok\n' '' '' journal -b base -l live

# Each front of a log gives the state before, or one of what its whole lines say.
rm -f live ran
cut KILL change -w 1 b top
holds 'room is reserved behind the lines of a log' test "$(tail -c 4000 live.run | tr -d ' ' | wc -c)" -eq 0
lines_of live.run > whole
cp live before
size=$(stat -c %s whole)
front=$(session_text before | wc -c)
: > states
for bytes in $(seq "$front" "$size"); do
    cp before live
    head -c "$bytes" whole > live.run
    "$program" change -b base -l live < /dev/null > said 2>&1 || cat said >> states
    "$program" live -b base -l live | head -n 1 >> states
done
wants 'live\nlive a\nlive a b\n' ''
uniq states > out
: > err
echo 0 > status
judge 'each front of a run log' 0
for bytes in 1 20 "$((front - 1))"; do
    cp before live
    head -c "$bytes" whole > live.run
    expect 0 'ok\n' '' '' change -b base -l live
done

# A line that was cut short over the room behind it is none.
for bytes in $(seq "$front" "$size"); do
    cp before live
    { head -c "$bytes" whole; printf '%5000s' ''; } > live.run
    "$program" change -b base -l live < /dev/null > said 2>&1 || cat said >> states
    "$program" live -b base -l live | head -n 1 >> states
done
wants 'live\nlive a\nlive a b\nlive\nlive a\nlive a b\n' ''
uniq states > out
: > err
echo 0 > status
judge 'each front of a run log with room behind it' 0

# A hole that a killed worker left in a log without room is as blank as room.
cp before live
{ sed '$d' whole; head -c 100 /dev/zero; tail -n 1 whole; } > live.run
expect 0 'ok\n' 'undorc: Recovered\n' '' change -b base -l live

# A log of another text is removed, and never entered later.
cp before live
cp whole live.run
"$program" change a -x none -b base -l other < /dev/null > /dev/null
cp other live
expect 0 'live a\nok\n' '' 'live\n' session -b base -l live -x none
expect 0 'live\nok\n' '' 'live\n' session -b base -l fresh -x none
cp before live
expect 0 'live\nok\n' '' 'live\n' session -b base -l live -x none

# In a history a log is entered by the database of the history, whatever -b names. One that fits no run there is left, and
# nothing is done.
for named in foreign missing; do
    cp before live
    cp whole live.run
    told="undorc: $named is not the database of this session: undorc update -b $named -l live carries it over\\n"
    [ -e "$named" ] || told=
    expect 0 'live a b\nok\n' "undorc: Recovered\n$told" 'live\n' session -b "$named" -l live -x none
done
cp before live
{ cat whole; printf 'take 1 nobody\n'; } > live.run
cp live.run kept
expect 111 '' 'undorc: Unrecovered\n' '' change -b base -l live
expect 111 '' 'undorc: Unrecovered\n' 'live\n' session -b base -l live -x none
wants '' ''
shown live.run
cp kept out.wanted
judge 'a log that does not fit a history stays' 0

# A log that fits no database that is named, or none that can be, is left, and nothing is done.
session_text before > live
cp whole live.run
cp whole kept
expect 111 '' 'undorc: Unrecovered\n' 'live\n' session -b foreign -l live -x none
expect 111 '' 'undorc: Unrecovered\n' "$(sed 's/$/\\n/' base | tr -d '\n')live\n" session -l live -x none
holds 'a log that does not fit is left' cmp -s live.run kept
head -n 3 base > wrong
expect 1 '' "undorc: Bad $(stat -c %s wrong)\n" 'live\n' session -b wrong -l live -x none
wants '' ''
shown live.run
cp kept out.wanted
judge 'a log that was not entered stays' 0
printf 'take 1 nobody\n' >> live.run
expect 111 '' 'undorc: Unrecovered\n' 'live\n' session -b base -l live -x none
rm live.run
expect 0 'live\nok\n' '' 'live\n' session -b base -l live -x none

# A log that can't be read or made is told before anything moves.
for what in 'mkdir live.run' 'mkfifo live.run' 'ln -s elsewhere live.run' 'mkdir live.stop'; do
    rm -f live ran
    $what
    expect 111 '' 'undorc: Io\n' '' change a -b base -l live
    expect 111 '' 'undorc: Io\n' 'change a\n' session -b base -l live
    "$program" change a -b base -l live < /dev/null > /dev/null 2> told || true
    holds "$what, and the file is named" grep -q "^  ${what##* }: " told
    rm -rf live.run live.stop
done
holds 'nothing was started without a log' test ! -e ran
# Where programs are not started there is no log.
rm -f live
expect 0 'raised a\nok\n' '' '' change a -x none -b base -l live
holds 'no log where nothing is started' test ! -e live.run

# A session begins a log with each line, and removes it at its end.
rm -f live ran go begun
begins -b base -l live -w 1
tell 'change a'
hear
[ ! -s live.run ] || echo 'the log of a line that is over' >> out
tell 'change top'
until_begun
lines_of live.run | sed '1,/^end$/d' >> out
# The lock names its process. Others of this name may be under test at the same time.
read -r owner _ < live.lock
kill -KILL "$owner"
exec 3>&-
cat <&4 >> out
exec 4<&-
wait
: > err
slow_goes_on
echo 0 > status
wants 'raised a\nok\n-t 1 -u change top\ntake 1 b\ndone 1 b ok\ntake 1 slow\n' ''
judge 'the third line of a session that is killed' 0
expect 0 'at 2 of 3\n0 +a\n1 +b\nok\n' 'undorc: Recovered\n' 'journal\n' session -b base -l live -x none

# An undo and a redo, too.
rm -f live ran go begun
: > go
"$program" change top -b base -l live < /dev/null > /dev/null
"$program" undo -b base -l live < /dev/null > /dev/null
cut KILL redo -w 1
expect 0 'at 1 of 3\n0 +a +b\n1 +slow +top\nok\n' 'undorc: Recovered\n' 'journal\n' session -b base -l live -x none

# Both halves of an update.
begin_tree
oneshot a 'echo new a >> ran' b
oneshot b 'echo up b >> ran'
oneshot slow 'echo begun > begun; until [ -e go ]; do sleep 0.02; done; echo up slow >> ran' a
oneshot top 'echo up top >> ran' slow
down slow 'echo begun > begun; until [ -e go ]; do sleep 0.02; done; echo down slow >> ran'
"$program" compile tree > next
# half OLD NEW [NAME..]: an update that is killed while `slow` is under way, with these names up, too
half() {
    rm -f live ran begun go
    : > go
    old=$1 new=$2
    shift 2
    "$program" change a slow "$@" -b "$old" -l live < /dev/null > /dev/null
    killed_update "$old" "$new"
}
# killed_update OLD NEW [OPTION..]: the same of what is up
killed_update() {
    rm -f go begun
    old=$1 new=$2
    shift 2
    "$program" update -b "$old" -B "$new" -w 1 -l live "$@" < /dev/null > cut.out 2> cut.err &
    killed=$!
    until_begun
    kill -KILL "$killed"
    wait "$killed" 2> /dev/null || true
    slow_goes_on
}
half next base
expect 0 'at 1 of 2\n0 +a +b +slow\nok\n' 'undorc: Recovered\n' 'journal\n' session -b next -l live -x none
half base next
told='undorc: Recovered\nundorc: an update or a restart was not finished: undorc undo -b next -l live takes it back\n'
expect 0 'live a b\nok\n' "$told" 'live\n' session -b next -l live -x none
# An update that is given again enters it, takes it back, and carries over.
half next base
expect 0 'lowered a slow\nok\nraised a slow\nok\n' 'undorc: Recovered\n' '' update -b next -B base -l live
# So what its first half has lowered comes up, too, also if another command comes between them.
half next base top
expect 0 'raised top\nok\nlowered a slow top\nok\nraised a slow top\nok\n' 'undorc: Recovered\n' '' update -b next -B base -l live
half next base top
expect 0 'ok\n' "$told" '' change -b next -l live
expect 0 'raised top\nok\nlowered a slow top\nok\nraised a slow top\nok\n' '' '' update -b next -B base -l live
half next base top
expect 0 'raised top\nok\n' 'undorc: Recovered\n' '' undo -b next -l live
# Where it has lowered nothing, what an earlier change lowered stays down.
rm -f live ran begun
: > go
"$program" change a slow top -b next -l live < /dev/null > /dev/null
"$program" change -d top -b next -l live < /dev/null > /dev/null
killed_update next base
expect 0 'lowered a slow\nok\nraised a slow\nok\n' 'undorc: Recovered\n' '' update -b next -B base -l live
# It renames or restarts services again if it is given so again. Another update takes it back, too.
mv tree/top tree/tip
rm -r tree/a
oneshot a 'echo up a >> ran'
"$program" compile tree > named
echo 'top -> tip' > renames
# cut_short OLD NEW [OPTION..]: an update of what is up in `next` that is killed while `slow` goes down
cut_short() {
    rm -f live ran begun
    : > go
    "$program" change a slow top -b next -l live < /dev/null > /dev/null
    killed_update "$@"
}
cut_short next named -f renames
expect 0 'raised top\nok\nlowered a slow top\nok\nraised a slow tip\nok\n' 'undorc: Recovered\n' '' update -b next -B named -l live -f renames
cut_short next named -f renames
expect 0 'raised top\nok\nlowered a slow top\nok\nraised a slow\nok\n' 'undorc: Recovered\n' '' update -b next -B named -l live
cut_short next next -R slow
expect 0 'raised top\nok\nlowered slow top\nok\nraised slow top\nok\n' 'undorc: Recovered\n' '' update -b next -B next -l live -R slow
cut_short next next -R slow
expect 0 'raised top\nok\nok\nok\n' 'undorc: Recovered\n' '' update -b next -B next -l live
half base next
"$program" update -b base -B next -l live < /dev/null > said 2> told || true
grep -cx 'undorc: Recovered' told > out
: > err
echo 0 > status
wants '1\n' ''
judge 'an update after one whose second half was cut short' 0

# A command is called off: what is under way ends, and nothing more begins.
rm -f live ran go begun
"$program" change -w 1 top -b base -l live < /dev/null > out 2> err &
called=$!
until_begun
expect 0 'live\nok\n' 'undorc: a command is under way\n' '' live -b base -l live
# Each time it says what it waits for: what has begun and has not ended.
expect 0 '' 'undorc: slow is under way\n' '' cancel -l live
expect 0 '' 'undorc: live is being stopped: what is under way there ends\nundorc: slow is under way\n' '' cancel -l live
: > go
echo 0 > status
wait "$called" || echo $? > status
expect 0 'live a b slow\nok\n' '' '' live -b base -l live
scripts_ran 'what a command moved that was called off' 'up a\nup b\nup slow\n'
expect 1 '' 'undorc: no command is under way on live\n' '' cancel -l live
expect 1 '' 'undorc: no command is under way on nowhere\n' '' cancel -l nowhere
holds 'cancel makes no lock' test ! -e nowhere.lock
wrong cancel
says 'cancel wants -l, or UNDORC_LIVE'
wrong cancel -l live more
# What was called off is not in the next command.
expect 0 'raised top\nok\n' '' '' change top -b base -l live

# With -k the script that is under way is ended, too; one that ignores TERM is killed after five seconds.
begin_tree
oneshot slow "trap '' TERM; echo begun > begun; until [ -e go ]; do sleep 0.02; done"
oneshot top 'true' slow
"$program" compile tree > deaf
for base in base deaf; do
    rm -f live ran go begun
    echo 0 > status
    "$program" change -w 1 top -b "$base" -l live < /dev/null > out 2> err &
    called=$!
    until_begun
    seconds=$(date +%s)
    "$program" cancel -k -l live 2> told || echo "status $?" >> told
    seconds=$(($(date +%s) - seconds))
    wait "$called" || echo $? > status
    case $base$seconds in
        base[0-3] | deaf[5-9]) ;;
        *) echo "it took $seconds s" >> told ;;
    esac
    sed -e 's/ process [0-9]*$/ process N/' told >> err
    # Of `deaf` nothing else comes up.
    sed '/^raised a b$/d' out > out.less
    mv out.less out
    wants 'failed slow\nuntried top\nok\n' 'undorc: slow: ends process N\n'
    judge "a change whose script is ended, $base" 2
done

# The status is 2, and the answer names what was not tried; TERM and INT do the same where they are blocked.
for signal in cancel TERM INT HUP; do
    rm -f live ran go begun
    echo 0 > status
    if [ "$signal" = cancel ]; then
        "$program" change -w 1 top -b base -l live < /dev/null > out 2> err &
    else
        env --block-signal="$signal" "$program" change -w 1 top -b base -l live < /dev/null > out 2> err &
    fi
    called=$!
    until_begun
    if [ "$signal" = cancel ]; then UNDORC_LIVE=live "$program" cancel 2> told; else kill "-$signal" "$called"; fi
    : > go
    wait "$called" || echo $? > status
    wants 'raised a b slow\nuntried top\nok\n' ''
    judge "a change that is called off by $signal" 2
done

# What ends after the call is reported with the time that has passed since the command began.
rm -f live ran go begun
"$program" change -v -w 1 slow -b base -l live < /dev/null > out 2> told &
called=$!
until_begun
"$program" cancel -l live
sleep 1.1
: > go
wait "$called" || true
sed -n 's/^undorc: *\([0-9]*\)\.[0-9]* s  up slow: ok$/\1/p' told > out
read -r seconds < out || seconds=none
if [ "$seconds" -ge 1 ] && [ "$seconds" -lt 60 ]; then echo soon > out; fi
wants 'soon\n' ''
: > err
echo 0 > status
judge 'the time of what ends after the call' 0

# ^C at a terminal goes to the scripts, too. It ends the program, and the next command recovers it; under `orderly` the
# script that is under way ends well, and the program in order.
cat > press.py <<'END'
import os, pty, signal, sys, time

child, terminal = pty.fork()
if child == 0:
    signal.signal(signal.SIGINT, signal.SIG_DFL)
    os.execvp(sys.argv[1], sys.argv[1:])
while not os.path.exists("begun") or os.path.getsize("begun") == 0:
    time.sleep(0.02)
os.write(terminal, b"\x03")
time.sleep(0.5)
open("go", "w").close()
try:
    while os.read(terminal, 4096):
        pass
except OSError:
    pass
print(os.waitstatus_to_exitcode(os.waitpid(child, 0)[1]))
END
rm -f live ran go begun
python3 press.py "$program" change -w 1 b top -b base -l live > out
wants '-2\n' ''
: > err
echo 0 > status
judge '^C at a terminal ends a change' 0
expect 0 'at 1 of 2\n0 +a +b\nok\n' 'undorc: Recovered\n' 'journal\n' session -b base -l live -x none
rm -f live ran go begun
UNDORC_PROGRAM=$program python3 press.py "$top/contrib/orderly" change -w 1 b top -b base -l live > out
wants '2\n' ''
: > err
echo 0 > status
judge '^C at a terminal under orderly' 0
scripts_ran 'what ^C at a terminal under orderly lets end' 'up a\nup b\nup slow\n'
expect 0 'at 1 of 2\n0 +a +b +slow\nok\n' '' 'journal\n' session -b base -l live -x none

# There orderly hands on what it reads, and says where setsid is missing.
cat > terminal.py <<'END'
import os, pty, sys

sys.exit(os.waitstatus_to_exitcode(pty.spawn(sys.argv[1:])))
END
rm -f live ran go begun
printf 'change a\nchange b\n' > in
: > err
echo 0 > status
# shellcheck disable=SC2016 # the inner shell reads it
UNDORC_PROGRAM=$program python3 terminal.py sh -c '"$0" session -b base -l live < in > out 2> err' "$top/contrib/orderly" \
    < /dev/null > seen || echo $? > status
wants 'raised a\nok\nraised b\nok\n' ''
judge 'orderly reads lines at a terminal' 0
mkdir few
for name in sh env; do ln -s "$(command -v "$name")" "few/$name"; done
rm -f live ran
echo 0 > status
UNDORC_PROGRAM=$program python3 terminal.py env "PATH=$PWD/few" "$top/contrib/orderly" change a -b base -l live \
    < /dev/null > seen || echo $? > status
tr -d '\r' < seen > out
: > err
wants 'orderly: setsid is missing, so ^C at a terminal ends scripts, too\nraised a\nok\n' ''
judge 'orderly without setsid at a terminal' 0
rm -r few

# Where env can't block signals, orderly calls the command off by `undorc cancel`.
mkdir plain
printf '#!/bin/sh\nexit 1\n' > plain/env
chmod 755 plain/env
rm -f live ran go begun
echo 0 > status
PATH=$PWD/plain:$PATH UNDORC_PROGRAM=$program sh "$top/contrib/orderly" change -w 1 top -b base -l live < /dev/null > out 2> err &
called=$!
until_begun
kill -TERM "$called"
for turn in $(seq 250); do
    [ ! -s live.stop ] || break
    sleep 0.02
done
: > go
wait "$called" || echo $? > status
wants 'raised a b slow\nuntried top\nok\n' 'undorc: slow is under way\n'
judge 'orderly where env blocks nothing' 2

# The status is that of the command also where it ends while the trap runs.
rm -f live ran go begun
echo 0 > status
printf '#!/bin/sh\nif [ "$1" = cancel ]; then "%s" "$@"; : > go; sleep 1; else exec "%s" "$@"; fi\n' "$program" "$program" > slowly
chmod 755 slowly
PATH=$PWD/plain:$PATH UNDORC_PROGRAM=$PWD/slowly sh "$top/contrib/orderly" change -w 1 top -b base -l live < /dev/null > out 2> told &
called=$!
until_begun
kill -TERM "$called"
wait "$called" || echo $? > status
: > err
wants 'raised a b slow\nuntried top\nok\n' ''
judge 'orderly whose command ends while its trap runs' 2

# One that waits there for another ends, and the other one is not called off.
rm -f live ran go begun
echo 0 > status
"$program" change -w 1 top -b base -l live < /dev/null > out 2> err &
called=$!
until_begun
PATH=$PWD/plain:$PATH UNDORC_PROGRAM=$program sh "$top/contrib/orderly" change -W b -b base -l live < /dev/null > cut.out 2> cut.err &
waiting=$!
for turn in $(seq 250); do
    ! grep -q waits cut.err || break
    sleep 0.02
done
kill -TERM "$waiting"
for turn in $(seq 250); do
    kill -0 "$waiting" 2> /dev/null || break
    sleep 0.02
done
: > go
ended=0
wait "$waiting" || ended=$?
wait "$called" || echo $? > status
echo "$ended" >> out
wants 'raised a b slow top\nok\n143\n' ''
judge 'orderly that waits for another where env blocks nothing' 0

# A command is called off from the moment on at which it has the lock, also before it has opened its other files.
if command -v strace > /dev/null && command -v flock > /dev/null; then
    rm -f live ran go begun
    echo 0 > status
    ASAN_OPTIONS=detect_leaks=0 strace -f -o /dev/null -P live.run -e inject=openat:delay_enter=400000 \
        "$program" change -w 1 b -b base -l live < /dev/null > out 2> err &
    called=$!
    for turn in $(seq 500); do
        if [ -s live.lock ] && ! flock -n live.lock true; then break; fi
        sleep 0.02
    done
    expect 0 '' '' '' cancel -l live
    wait "$called" || echo $? > status
    "$program" live -b base -l live > out
    wants 'live\nok\n' ''
    : > err
    echo 0 > status
    judge 'a command that is called off as soon as it has the lock' 0
    holds 'and nothing was started' test ! -e ran
else
    skip 'a command that is called off as soon as it has the lock, which takes strace and flock'
fi

# What names another command calls none off: here what was left behind by one that is over.
rm -f live ran go begun
echo 0 > status
"$program" change -w 1 top -b base -l live < /dev/null > out 2> err &
called=$!
until_begun
printf 'stop 1 1 0\nstop\n' >> live.stop
: > go
wait "$called" || echo $? > status
wants 'raised a b slow top\nok\n' ''
judge 'a line that calls off another command' 0
printf 'stop 1 1 0\nstop\n' > live.stop
expect 0 'lowered a b slow top\nok\n' '' '' undo -b base -l live
holds 'what called others off is removed' test ! -e live.stop

# A command is called off also where FILE.stop was removed by hand after the command had opened it, and where a part of a
# line stands there.
for what in 'rm live.stop' 'printf "stop 1" >> live.stop'; do
    rm -f live ran go begun
    echo 0 > status
    "$program" change -w 1 top -b base -l live < /dev/null > out 2> err &
    called=$!
    until_begun
    sh -c "$what"
    expect 0 '' 'undorc: slow is under way\n' '' cancel -l live
    : > go
    echo 0 > status
    wait "$called" || echo $? > status
    "$program" live -b base -l live > out
    wants 'live a b slow\nok\n' ''
    : > err
    judge "a command that is called off after: $what" 2
done

# The line goes there by one write, so that those of two programs do not mix.
if command -v strace > /dev/null; then
    rm -f live ran go begun
    "$program" change -w 1 top -b base -l live < /dev/null > out 2> err &
    called=$!
    until_begun
    ASAN_OPTIONS=detect_leaks=0 strace -f -o trace -e trace=write "$program" cancel -l live 2> told
    : > go
    wait "$called" || true
    grep -c 'write(.*stop' trace > out || true
    grep -c 'write(.*\\nstop [0-9]* [0-9]* 0\\n"' trace >> out || true
    : > err
    echo 0 > status
    wants '1\n1\n' ''
    judge 'one write of a stop' 0
else
    skip 'one write of a stop, which takes strace'
fi

# A line of a session is called off where FILE.stop was removed by hand before it.
rm -f live ran go begun
begins -b base -l live -w 1
tell 'dry top'
hear
rm live.stop
tell '-t 60000 change top'
until_begun
"$program" cancel -l live 2> told || echo "$?" >> out
: > go
hear
wants 'raise a b slow top\nok\nraised a b slow\nuntried top\nok\n' ''
ends 'a line of a session that is called off after its file was removed' 0

# A line of a session is called off, and no later one. Between two lines there is none.
rm -f live ran go begun
begins -b base -l live -w 1
tell '-t 60000 change top'
until_begun
"$program" cancel -l live 2> told || echo "$?" >> out
: > go
hear
ended=0
"$program" cancel -l live 2> told || ended=$?
echo "$ended" >> out
cat told >> out
tell '-t 60000 change top'
hear
tell '-t 60000 undo'
hear
wants 'raised a b slow\nuntried top\nok\n1\nundorc: no command is under way on live\nraised top\nok\nlowered top\nok\n' ''
ends 'a line of a session that is called off' 0

# A limit of 0 is none, and such a command can't be called off.
rm -f live ran go begun
echo 0 > status
"$program" change -t 0 -w 1 top -b base -l live < /dev/null > out 2> err &
called=$!
until_begun
"$program" cancel -l live 2> told
: > go
wait "$called" || echo $? > status
wants 'raised a b slow top\nok\n' ''
judge 'a change without a limit goes on' 0

# A command that waits for another tells so after a second, and ends by a signal.
rm -f live ran go begun
"$program" change -w 1 slow -b base -l live < /dev/null > cut.out 2> cut.err &
called=$!
until_begun
echo 0 > status
env --block-signal=INT "$program" change b -W -b base -l live < /dev/null > out 2> err &
waiting=$!
for turn in $(seq 500); do
    ! grep -q waits err || break
    sleep 0.02
done
kill -INT "$waiting"
wait "$waiting" || echo $? > status
wants '' 'undorc: waits for the command that has live\nundorc: Busy\n'
judge 'a command that waits for another is called off' 111
: > go
wait "$called"

# A log that could not hold its run: nothing is started.
begin_tree
mkdir tree/all
echo bundle > tree/all/type
for number in $(seq 24); do
    name=service-of-a-name-of-some-length-no-$number
    oneshot "$name" 'echo up >> ran'
    echo "$name" >> tree/all/contents
done
"$program" compile tree > long
rm -f live ran
echo 0 > status
env --ignore-signal=XFSZ prlimit --fsize=4096 "$program" change -w 1 all -b long -l live < /dev/null > out 2> err || echo $? > status
holds 'a log that could not hold its run is named' grep -q '^  live.run: ' err
wants '' 'undorc: Io\n'
judge 'a log that could not hold its run' 111
holds 'a log that could not hold its run, and nothing is started' test ! -e ran

# A file that can't be replaced after a run: the command says what it moved, and the next one enters it.
begin_tree
oneshot a 'echo up a >> ran'
oneshot b 'echo up b >> ran'
oneshot slow 'mkdir live.new' a
oneshot top 'echo up top >> ran' slow
"$program" compile tree > base
rm -rf live live.* ran
echo 0 > status
"$program" change -w 1 b top -b base -l live < /dev/null > out 2> told || echo $? > status
sed -n '/^undorc: the next/,$p' told > out
firsts told | grep -v '^undorc: the next' > err
wants 'undorc: the next command enters what was moved\n  raised a b slow top\n' 'undorc: Io\n'
judge 'a file that can not be replaced after a run' 111
rmdir live.new
expect 0 'ok\n' 'undorc: Recovered\n' '' change -b base -l live
expect 0 'at 1 of 2\n0 +a +b +slow +top\nok\n' '' '' journal -b base -l live

# A disk that fills: the room of a run is taken before it begins, so a command moves nothing, or all, and FILE says which.
if [ "$(id -u)" -eq 0 ] && unshare -m true 2> /dev/null; then
    mkdir disk
    # The script that is under way fills the disk.
    begin_tree
    oneshot a 'echo up a >> ran'
    oneshot b 'echo up b >> ran'
    oneshot slow 'head -c 65536 /dev/zero > disk/filler 2> /dev/null; true' a
    oneshot top 'echo up top >> ran' slow
    "$program" compile tree > base
    cat > full.sh <<'END'
mount -t tmpfs -o size=64k,mode=755 tmpfs disk
"$1" change -w 1 b top -b base -l disk/live > out 2> err || echo $? > status
"$1" journal -b base -l disk/live >> out 2>> err
END
    echo 0 > status
    unshare -m sh full.sh "$program" < /dev/null > /dev/null 2>&1
    wants 'raised a b slow top\nok\nat 1 of 2\n0 +a +b +slow +top\nok\n' ''
    judge 'a disk that fills in the midst of a change' 0
    # The room of its log covers a database with long scripts, too, which the first command puts into FILE.
    begin_tree
    oneshot a "echo up a >> ran; : $(head -c 60000 /dev/zero | tr '\0' x)"
    oneshot slow 'head -c 300000 /dev/zero > disk/filler 2> /dev/null; true' a
    oneshot top 'echo up top >> ran' slow
    "$program" compile tree > base
    sed 's/size=64k/size=256k/; s/change -w 1 b top/change -w 1 top/' full.sh > long.sh
    echo 0 > status
    unshare -m sh long.sh "$program" < /dev/null > /dev/null 2>&1
    wants 'raised a slow top\nok\nat 1 of 2\n0 +a +slow +top\nok\n' ''
    judge 'a disk that fills in the midst of a first change' 0
    # Whatever room there is.
    begin_tree
    for number in $(seq 60); do
        oneshot "s$number" "echo 'up s$number' >> ran"
        down "s$number" "echo 'down s$number' >> ran"
    done
    "$program" compile tree > many
    cat > full.sh <<'END'
mount -t tmpfs -o size=256k,mode=755 tmpfs disk
"$1" change -b many -l disk/live
head -c 1000000 /dev/zero > disk/filler 2> /dev/null
for room in 4 8 16 24 32 48 64 72 88 128; do
    for words in "change $(seq -s ' ' -f s%g 60)" undo; do
        rm -f ran
        truncate -s "$((256 * 1024 - 12288 - room * 1024))" disk/filler
        status=0
        "$1" $words -w 4 -b many -l disk/live > said 2>> err || status=$?
        touch ran
        echo "$status ran $(wc -l < ran) live $("$1" live -b many -l disk/live | head -n 1 | wc -w)"
    done
done
# lowers PAGES FORM: all of them come down by a change where so many pages are free. FILE is a history, or the text of a
# session, which stays one, since the database is on standard input
lowers() {
    free=$1 form=$2
    rm -f disk/*
    all=$(seq -s ' ' -f s%g 60)
    echo "change $all" > in
    "$program" session -w 4 -b many -l disk/live < in
    set -- -l disk/live
    if [ "$form" = history ]; then
        set -- -b many -l disk/live
        "$program" change "$@"
    fi
    head -c 1000000 /dev/zero > disk/filler 2> /dev/null
    used=$(($(stat -c %b disk/live) * 512 + 4096))
    truncate -s "$((256 * 1024 - used - free * 4096))" disk/filler
    rm -f ran
    status=0
    "$program" change -D $all -w 4 "$@" > said 2>> err < many || status=$?
    echo "lowered, $form, $free pages: $status ran $(wc -l < ran) live $("$program" live -b many -l disk/live | head -n 1 | wc -w)"
}
program=$1
# With two pages left all of them come down, if FILE has the text of a session alone. A history needs room for its database
# too. Where that is missing, the next command enters what has moved.
lowers 2 text
lowers 3 history
lowers 2 history
rm disk/filler
"$program" change -b many -l disk/live 2>&1 | grep Recovered
echo "lowered, entered: live $("$program" live -b many -l disk/live | head -n 1 | wc -w)"
END
    unshare -m sh full.sh "$program" < /dev/null > told 2>&1
    grep '^[0-9]* ran' told | sort | uniq -c | sed 's/^ *//' > counted
    sed 's/^[0-9]* //' counted > out
    wants '0 ran 60 live 1\n0 ran 60 live 61\n111 ran 0 live 1\n' ''
    : > err
    echo 0 > status
    judge 'commands on a disk with little room' 0
    sed -n 's/^lowered, //p' told > out
    wants 'text, 2 pages: 0 ran 60 live 1
history, 3 pages: 0 ran 60 live 1
history, 2 pages: 111 ran 60 live 61
entered: live 1\n' ''
    judge 'a change that only lowers, on a disk with too little room to raise' 0
    # Either both steps of a restart, and of an update to more services, have room, or neither is begun.
    begin_tree
    for number in $(seq 20); do
        oneshot "s$number" "echo 'up s$number' >> ran"
        down "s$number" "echo 'down s$number' >> ran"
    done
    "$program" compile tree > few
    cat > full.sh <<'END'
mount -t tmpfs -o size=256k,mode=755 tmpfs disk
"$1" change $(seq -s ' ' -f s%g 20) -b few -l disk/live
head -c 1000000 /dev/zero > disk/filler 2> /dev/null
for room in $(seq 4 4 64); do
    head -c 1000000 /dev/zero >> disk/filler 2> /dev/null
    truncate -s "$((256 * 1024 - 8192 - room * 1024))" disk/filler
    status=0
    "$1" restart s1 s2 s3 -b few -l disk/live > said 2>> err || status=$?
    echo "restart: $status live $("$1" live -b few -l disk/live | head -n 1 | wc -w)"
    "$1" add both s1 s2 -f -b few -l disk/live > said 2>> err || echo "edit: $?"
done
for room in $(seq 4 4 128); do
    head -c 1000000 /dev/zero >> disk/filler 2> /dev/null
    truncate -s "$((256 * 1024 - 8192 - room * 1024))" disk/filler
    status=0
    "$1" update -R s1 -b few -B many -l disk/live > said 2>> err || status=$?
    echo "update: $status"
    [ "$status" -ne 0 ] || break
done
END
    unshare -m sh full.sh "$program" < /dev/null > told 2>&1
    grep -e '^restart' -e '^update' -e '^edit' told | sort -u > out
    wants 'restart: 0 live 21\nrestart: 111 live 21\nupdate: 0\nupdate: 111\n' ''
    : > err
    echo 0 > status
    judge 'restarts, edits and updates on a disk with little room' 0
    rm told counted
else
    skip 'a disk that fills in the midst of a change, which takes root and unshare'
fi
cd ..
