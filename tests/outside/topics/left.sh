# Programs that a killed command has left running: the next command waits for them.
# program.sh reads this file.
# shellcheck source=../trees.sh
. "$here/trees.sh"
mkdir left-running
cd left-running

# The oneshots `base`, and `web` that needs it, whose scripts say when they begin and end. That of `web` waits for the
# file `go`. `short` does, too, and has a limit.
begin_tree
oneshot base 'echo "base begins" >> record; echo "base ends" >> record'
waiting='for turn in $(seq 2000); do [ ! -e go ] || break; sleep 0.02; done'
oneshot web "echo \"web begins\" >> record; $waiting; echo \"web ends\" >> record" base
oneshot short "echo \"short begins\" >> record; $waiting; echo \"short ends\" >> record"
limit short 3000
"$program" compile tree > made

# cut_off NAME: a change that is killed while the script of this service runs, once the log names that
cut_off() {
    rm -f go record live live.run err
    "$program" change "$1" -b made -l live < /dev/null > /dev/null 2>&1 &
    killed=$!
    within 1000 grep -qs "$1 begins" record
    within 1000 grep -qs "^# process $1 " live.run
    kill -KILL "$killed"
    wait "$killed" 2> /dev/null || true
}
# within COUNT TEST..: waits until the test passes, at most so many fiftieths of a second
within() {
    turns=$(seq "$1")
    shift
    for turn in $turns; do
        ! "$@" || break
        sleep 0.02
    done
}
# lets_go: once a command has told that it waits, the script goes on
lets_go() {
    within 1000 grep -qs 'waits for' err
    : > go
}
# gives WHAT OUTPUT RECORD WORDS..: the next command writes this, what it tells among it, and this is the record after it
gives() {
    title=$1
    printf '%b' "$2$3" > left.wanted
    shift 3
    "$program" "$@" -b made -l live < /dev/null > out 2> err || echo "status $?" >> err
    sed 's/process [0-9]*/process N/' err > left
    cat out record >> left
    same "$title"
}
left='process N of a command that was killed'

# The log names each program that is started, and its limit.
cut_off web
sed -n 's/^# process \([a-z]*\) [1-9][0-9]* [1-9][0-9]* \([0-9]*\)$/\1 \2/p' live.run > left
printf 'base 0\nweb 0\n' > left.wanted
same 'the log names each program'
pid=$(sed -n 's/^# process web \([0-9]*\) .*/\1/p' live.run)
holds 'it is that of the script' kill -0 "$pid"

# `cancel` names what is left of the killed command, and ends it with -k. Then no command is in progress.
expect 0 '' 'undorc: web is under way\n' '' cancel -l live
"$program" cancel -k -l live > out 2> err || echo "status $?" >> err
sed 's/process [0-9]*/process N/' err | cat - out > left
printf 'undorc: web: ends process N\n' > left.wanted
same 'cancel -k ends what a killed command has left'
within 100 sh -c "! kill -0 $pid 2> /dev/null"
if kill -0 "$pid" 2> /dev/null; then echo 'it still runs' > left; else echo 'it has ended' > left; fi
echo 'it has ended' > left.wanted
same 'and that has ended'
expect 1 '' 'undorc: no command is under way on live\n' '' cancel -l live
cut_off web

# The next command waits until it has ended, whatever that command is.
lets_go &
gives 'the same change' "undorc: web: waits for $left\nundorc: Recovered\n  raised base\n  failed web\nraised web\nok\n" \
    'base begins\nbase ends\nweb begins\nweb ends\nweb begins\nweb ends\n' change web
wait
cut_off web
lets_go &
gives 'a command that starts nothing' "undorc: web: waits for $left\nundorc: Recovered\n  raised base\n  failed web\nok\n" \
    'base begins\nbase ends\nweb begins\nweb ends\n' seal
wait
cut_off web
lets_go &
printf 'live\n' > in
printf "undorc: web: waits for %s\nundorc: Recovered\n  raised base\n  failed web\nlive base\nok\n" "$left" > left.wanted
"$program" session -b made -l live < in > out 2> err
{ sed 's/process [0-9]*/process N/' err; cat out; } > left
same 'a session'
wait

# Who only looks does not wait. A program that has ended is not waited for, nor is another one with its number.
cut_off web
expect 0 'live\nok\n' 'undorc: a command was cut short: the next one enters what it has moved\n' '' live -b made -l live
: > go
within 1000 grep -q 'web ends' record
within 1000 sh -c "! kill -0 $(sed -n 's/^# process web \([0-9]*\) .*/\1/p' live.run) 2> /dev/null"
gives 'it has ended' 'undorc: Recovered\n  raised base\n  failed web\nok\n' \
    'base begins\nbase ends\nweb begins\nweb ends\n' change
cut_off web
sed -i 's/^\(# process web [0-9]* [0-9]*\)/\11/' live.run
gives 'another one' 'undorc: Recovered\n  raised base\n  failed web\nok\n' 'base begins\nbase ends\nweb begins\n' change
: > go

# At its limit, counted from the next command on, it is ended.
cut_off short
pid=$(sed -n 's/^# process short \([0-9]*\) .*/\1/p' live.run)
gives 'a limit' "undorc: short: waits for $left\nundorc: Recovered\n  failed short\nok\n" 'short begins\n' change
within 1000 sh -c "! kill -0 $pid 2> /dev/null"
holds 'then it is ended' sh -c "! kill -0 $pid 2> /dev/null"

# A run log without such lines is entered as before, and a line of another form is a comment.
cut_off web
sed -i 's/^# process web [0-9]* /# process web /' live.run
gives 'a line of another form' 'undorc: Recovered\n  raised base\n  failed web\nok\n' \
    'base begins\nbase ends\nweb begins\n' change
: > go
cd ..
