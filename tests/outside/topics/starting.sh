# What scripts are told and how long they may take, what they write, and what is told of them while they run.
# program.sh reads this file.
# shellcheck source=../trees.sh
. "$here/trees.sh"

# What a script is told in its environment, whatever stood there before: its service, its way, and its limit, its own or
# that of -T.
begin_tree
note='echo "$UNDORC_NAME $UNDORC_WAY $UNDORC_LIMIT" >> noted'
oneshot any "$note"
down any "$note"
oneshot own "$note" any
down own "$note"
echo 3000 > tree/own/timeout-up
echo 70000 > tree/own/timeout-down
longrun run own
printf '#!/bin/sh\n[ "$1 $2" = "$UNDORC_WAY $UNDORC_NAME" ] && %s\n' "$note" > moves
chmod +x moves
for usual in 0 4294967295; do
    rm -f noted
    export UNDORC_NAME=x UNDORC_WAY=y UNDORC_LIMIT=z
    session 'raised any own run\nok\nlowered any own run\nok\n' '' 'change run\nundo\n' -c ./moves -T "$usual"
    unset UNDORC_NAME UNDORC_WAY UNDORC_LIMIT
    printf '%s\n' "any up $usual" 'own up 3000' "run up $usual" "run down $usual" 'own down 70000' "any down $usual" > left.wanted
    cp noted left
    same "what scripts are told in their environment, with -T $usual"
done
rm -f noted
session 'raised any\nok\n' '' 'change any\n'
echo 'any up 0' > left.wanted
cp noted left
same 'what a script is told without -T'

# The limit of -T is that of services without one of their own on that way, and of no others; it is rounded up to seconds.
begin_tree
oneshot free 'exec sleep 60'
oneshot deaf "echo \$\$ > deaf; trap '' TERM; while :; do sleep 0.1; done"
oneshot own 'sleep 2'
echo 9000 > tree/own/timeout-up
oneshot half true
down half 'sleep 2'
echo 9000 > tree/half/timeout-down
oneshot late true
down late 'exec sleep 60'
echo 9000 > tree/late/timeout-up
rm -f deaf
session 'raised half late own\nfailed deaf free\nok\nlowered half own\nfailed late\nok\n' '' \
    'change deaf free half late own\nundo\n' -T 1 -w 64
holds 'a script that ignores TERM is ended' sh -c '! kill -0 "$(cat deaf)" 2> /dev/null'
cp made bare
"$program" compile tree > made
holds 'the limit of -T is not in the database' cmp -s made bare

# A limit is kept: a script with a limit of a second is ended before another one, which takes six, and not only
# where that has ended.
begin_tree
oneshot long 'exec sleep 60'
limit long 1
oneshot six 'sleep 6'
"$program" compile tree > made
echo 'change long six' > in
"$program" session -b made -P -w 2 < in > out 2> left
timeless left
grep -v started left > ends
mv ends left
printf '%s\n' 'up long: timed out' 'up six: ok' > left.wanted
same 'a limit of a second is reached before six seconds are over'

# The times of -P are those at which scripts begin and end: a script that sleeps for 0.3 s ends 0.3 s after it began.
begin_tree
oneshot naps 'sleep 0.3'
"$program" compile tree > made
echo 'change naps' > in
"$program" session -b made -P < in > out 2> told
sed -n 's/^undorc: *\([0-9]*\.[0-9]*\) s  up naps: \([a-z]*\)$/\1 \2/p' told |
    awk '{ at[$2] = $1 } END { print (at["ok"] - at["started"] >= 0.3 ? "so long" : "too short") }' > left
echo 'so long' > left.wanted
same 'the times of a script that sleeps'

# What is told of a script is told while it happens: that it is started before it ends, and before what it writes.
begin_tree
oneshot first 'echo from first; while [ ! -e go ]; do sleep 0.05; done'
oneshot 'then' 'echo from then >&2; exit 9' first
oneshot last true 'then'
"$program" compile tree > made
rm -f go
begins -b made -P -w 2
tell 'change last'
for turn in $(seq 200); do
    [ "$(wc -l < err)" -lt 2 ] || break
    sleep 0.02
done
cp err left
timeless left
printf 'up first: started\nfrom first\n' > left.wanted
same 'what is told before a script has ended'
: > go
hear
wants 'raised first\nfailed then\nblocked last\nok\n' ''
exec 3>&-
cat <&4 >> out
exec 4<&-
wait
sed -n 's/^undorc: *\([0-9]*\.[0-9]*\) s  .*/\1/p' err > moments
sort -n -c moments 2> left || echo 'a time is before the one above' >> left
[ "$(wc -l < moments)" -eq 4 ] || echo 'not four times' >> left
: > left.wanted
same 'the times of what is told'
timeless err
printf '%s\n' 'up first: started' 'from first' 'up first: ok' 'up then: started' 'from then' 'up then: failed 9' > err.wanted
judge 'what is told of scripts' 0

# Lines of many workers stand apart, each of them whole.
begin_tree
for number in $(seq 10 73); do oneshot "s$number" 'exit 3'; done
"$program" compile tree > made
echo "change $(seq -s ' ' -f s%g 10 73)" > in
"$program" session -b made -P -w 64 < in > out 2> err
grep -c '^undorc:  *[0-9]*\.[0-9][0-9][0-9] s  up s[1-7][0-9]: \(started\|failed 3\)$' err > left
wc -l < err >> left
printf '128\n128\n' > left.wanted
same 'lines of 64 workers'

# What scripts write, both ways, goes where errors go with -P, and nowhere without; nothing stands in the answers, and a
# child that holds a script's streams is not waited for.
begin_tree
oneshot writes 'head -c 50000000 /dev/zero; head -c 50000000 /dev/zero >&2'
oneshot leaves 'sleep 300 & echo $! > child'
oneshot reads 'wc -c'
"$program" compile tree > made
echo 'change leaves reads writes' > in
wants 'raised leaves reads writes\nok\n' ''
echo 0 > status
"$program" session -b made -P < in 2> told > out || echo $? > status
: > err
judge 'a session whose scripts write 100 MB' 0
holds 'a child that is left is not waited for, with -v' kill "$(cat child)"
tr -cd '\0' < told | wc -c > left
tr -d '\0' < told | grep -c '^0$' >> left
printf '100000000\n1\n' > left.wanted
same 'what scripts write, with -v, and what they read'
rm told
"$program" session -b made < in > out 2>&1 || true
printf 'raised leaves reads writes\nok\n' > out.wanted
judge 'a session whose scripts write 100 MB to nobody' 0
holds 'a child that is left is not waited for' kill "$(cat child)"

# With a standard error that is closed or full the same is answered, and scripts write to nowhere or in vain.
begin_tree
oneshot says 'echo out; echo err >&2; exit 0'
"$program" compile tree > made
echo 'change says' > in
for closed in '2>&-' '2> /dev/full'; do
    wants 'raised says\nok\n' ''
    : > err
    echo 0 > status
    eval "\"\$program\" session -P -b made < in > out $closed" || echo $? > status
    judge "a session whose scripts write, with $closed" 0
done

# What is inherited: where SIGCHLD is ignored the system tells no end of a script, and where files are limited in size
# SIGXFSZ may end undorc, unless it is ignored. Nothing is started then. What runs no script is done.
begin_tree
oneshot one 'echo up >> ran'
"$program" compile tree > made
# inherits WHAT STATUS OUTPUT FAULT COMMAND..: a command that is started like this
inherits() {
    what=$1 wanted=$2
    wants "$3" "$4"
    shift 4
    rm -f ran
    echo 0 > status
    "$@" < /dev/null > out 2> err || echo $? > status
    judge "$what" "$wanted"
}
limited() {
    (ulimit -f 2000 && exec "$@")
}
rm -f started started.*
if env --ignore-signal=CHLD true 2> /dev/null; then
    ignoring="env --ignore-signal=CHLD"
    for words in "change one" "restart one" "session"; do
        # shellcheck disable=SC2086
        inherits "$words where SIGCHLD is ignored" 111 '' 'undorc: Inherited\n' $ignoring "$program" $words -b made -l started
        holds "$words where SIGCHLD is ignored, and nothing is started" test ! -e ran
        # shellcheck disable=SC2086
        inherits "$words where files are limited" 111 '' 'undorc: Inherited\n' limited "$program" $words -b made -l started
        holds "$words where files are limited, and nothing is started" test ! -e ran
    done
    # shellcheck disable=SC2086
    inherits 'an edit where SIGCHLD is ignored' 0 'ok\n' '' $ignoring "$program" add all one -b made -l started
    # shellcheck disable=SC2086
    inherits 'a trial where SIGCHLD is ignored' 0 'raised one\nok\n' '' $ignoring "$program" change one -b made -x none
    inherits 'a change where files are limited and SIGXFSZ is ignored' 0 'raised one\nok\n' '' \
        limited env --ignore-signal=XFSZ "$program" change one -b made -l started
else
    skip 'what is inherited, which takes env of GNU coreutils'
fi
