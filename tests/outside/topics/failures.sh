# The failures of a session: what is remembered in FILE.failed, and what `status` shows of it. program.sh reads this
# file.
# shellcheck source=../trees.sh
. "$here/trees.sh"
mkdir failures
cd failures

# `flag` works while the file `works` is there; `left` has a script that fails on its way down while `sticks` is there;
# `slow` waits for the file `go`.
begin_tree
oneshot flag '[ -e works ] || exit 3'
oneshot above 'true' flag
oneshot left 'true'
down left '[ ! -e sticks ]'
oneshot late 'sleep 30'
limit late 100
longrun ctl
oneshot slow ': > begun; until [ -e go ]; do sleep 0.02; done; [ -e works ]'
oneshot fine 'true'
"$program" compile tree > made

# remembers WHAT LINES: FILE.failed has these lines, in which times are TIME; no line: there is no such file
remembers() {
    if [ -e live.failed ]; then
        sed -E 's/ [0-9]{4}-[0-9]{2}-[0-9]{2}T[0-9]{2}:[0-9]{2}:[0-9]{2}Z / TIME /' live.failed > left
    else
        : > left
    fi
    printf '%b' "$2" > left.wanted
    same "$1"
}
# status_shows STATUS OUTPUT TOLD WORDS..: what status prints of this session, in which times are TIME
status_shows() {
    status_wanted=$1
    wants "$2" "$3"
    shift 3
    : > in
    runs status -b made -l live "$@"
    sed -i -E 's/ [0-9]{4}-[0-9]{2}-[0-9]{2}T[0-9]{2}:[0-9]{2}:[0-9]{2}Z / TIME /' out
    judge "undorc status $*" "$status_wanted"
}
# ends_with STATUS WORDS..: a command on this session ends with this status
ends_with() {
    echo "$1" > left.wanted
    shift
    : > in
    runs "$@" -b made -l live
    cp status left
    same "undorc $*"
}
head='undorc-failed 1\n'

# A failure is remembered with its way, its outcome and the state from which it went; what was blocked is not. A success
# leaves no file.
ends_with 0 change fine
remembers 'nothing failed' ''
ends_with 2 change above left
remembers 'a failure' "${head}flag up failed:3 TIME 1\n"
status_shows 0 'above down\nctl down\nfine up\nflag failed up failed:3 TIME 1\nlate down\nleft up\nslow down\n' ''
status_shows 3 'flag failed up failed:3 TIME 1\n' '' flag
status_shows 3 'flag failed up failed:3 TIME 1\n' '' -f
status_shows 3 'flag failed up failed:3 TIME 1\n' '' -f flag fine
status_shows 0 '' '' -f fine
status_shows 1 'refused Unknown nobody\n' '' -f nobody
# Others keep their lines, and a later failure takes the place of an earlier one.
ends_with 2 change late
remembers 'more failures' "${head}flag up failed:3 TIME 1\nlate up timed-out TIME 2\n"
ends_with 2 change -c /bin/false ctl
remembers 'a longrun' "${head}flag up failed:3 TIME 1\nlate up timed-out TIME 2\nctl up failed:1 TIME 2\n"
ends_with 2 change flag
remembers 'the last one counts' "${head}late up timed-out TIME 2\nctl up failed:1 TIME 2\nflag up failed:3 TIME 2\n"
# On the way down the service is up, and status says so. FILE.failed has the way.
: > sticks
ends_with 2 change -d left
remembers 'a failure on the way down' \
    "${head}late up timed-out TIME 2\nctl up failed:1 TIME 2\nflag up failed:3 TIME 2\nleft down failed:1 TIME 2\n"
status_shows 0 'left up\n' '' left
# A success removes the line of its service, and the last one the file.
rm sticks
: > works
ends_with 0 change -d left
ends_with 0 change flag
remembers 'a success' "${head}late up timed-out TIME 2\nctl up failed:1 TIME 2\n"
ends_with 0 change -c /bin/true ctl
printf '%b' "${head}slow up failed:1 2026-01-01T00:00:00Z 4\n" > live.failed
: > go
ends_with 0 change slow
remembers 'the last success' ''

# Who may read FILE may read this file, too.
rm works
ends_with 0 change -d slow
for rights in 600 644; do
    chmod "$rights" live
    rm -f live.failed
    ends_with 2 change slow
    stat -c %a live live.failed > left
    printf '%s\n' "$rights" "$rights" > left.wanted
    same 'the rights of FILE.failed'
done
# The lines of a session, and the steps of a restart, are entered one after the other. With -x nothing is.
rm -f live live.failed
printf 'change flag\nchange fine\n' > in
wants 'failed flag\nok\nraised fine\nok\n' ''
runs session -b made -l live
judge 'a session' 0
remembers 'the lines of a session' "${head}flag up failed:3 TIME 0\n"
rm -f live live.failed
ends_with 2 change -x up:flag flag
remembers 'a trial' ''
: > works
ends_with 0 change flag
rm works
ends_with 2 restart flag
remembers 'a restart' "${head}flag up failed:3 TIME 2\n"

# A command that is killed: status says so, and the next command enters its failures.
rm -f live live.failed begun go
ends_with 0 change fine
"$program" change slow flag -b made -l live < /dev/null > /dev/null 2>&1 &
killed=$!
for turn in $(seq 250); do
    [ ! -e begun ] || ! grep -q 'flag failed' live.run 2> /dev/null || break
    sleep 0.02
done
status_shows 3 'flag failed\nslow rising\n' '' slow flag
kill -KILL "$killed"
wait "$killed" 2> /dev/null || true
cut='undorc: a command was cut short: the next one enters what it has moved\n'
status_shows 3 'flag failed\nslow unknown\n' "$cut" slow flag
status_shows 3 'flag failed\nslow unknown\n' "$cut" -f
: > go
ends_with 0 change -d fine
# Either of the two may have begun first.
{ head -n 1 live.failed && tail -n +2 live.failed | sort; } > sorted
mv sorted live.failed
remembers 'a recovery' "${head}flag up failed:3 TIME 1\nslow up cut-short TIME 1\n"
# How the transition of `slow` ended is not known, and status says so.
status_shows 3 'flag failed up failed:3 TIME 1\nslow unknown up cut-short TIME 1\n' '' -f
status_shows 3 'slow unknown up cut-short TIME 1\n' '' slow
status_shows 3 'slow unknown up cut-short TIME 1\n' '' -f slow fine
status_shows 0 'above down\nctl down\nfine down\nflag failed up failed:3 TIME 1\nlate down\nleft down\nslow unknown up cut-short TIME 1\n' ''
# The word is that of this outcome alone.
for outcome in cut-shorter ut-short cut short cut-shor; do
    printf '%b' "${head}slow up $outcome 2026-01-01T00:00:00Z 1\n" > live.failed
    status_shows 3 "slow failed up $outcome TIME 1\n" '' -f
done

# A text that is none of failures is left alone, told, and shows nothing.
for text in 'something else\n' 'undorc-failed 2\n' "${head}flag up failed:3\n" "${head}a b c d e f\n"; do
    printf '%b' "$text" > live.failed
    status_shows 3 'flag down\n' 'undorc: live.failed: it is no list of failures: it is left out\n' flag
    wants 'failed flag\nok\n' "undorc: live.failed: it is no list of failures: what failed is not entered there\n"
    : > in
    runs change -q flag -b made -l live
    judge 'a text that is none of failures' 2
    remembers 'it stays' "$text"
done
# So is what is no plain file.
rm live.failed
mkdir live.failed
status_shows 3 'flag down\n' 'undorc: live.failed: is no plain file: it is left out\n' flag
wants 'failed flag\nok\n' 'undorc: live.failed: is no plain file: what failed is not entered there\n'
: > in
runs change -q flag -b made -l live
judge 'a directory in place of FILE.failed' 2
rmdir live.failed
ln -s elsewhere live.failed
wants 'failed flag\nok\n' 'undorc: live.failed: is no plain file: what failed is not entered there\n'
runs change -q flag -b made -l live
judge 'a link in place of FILE.failed' 2
[ ! -e elsewhere ] || echo 'the link was followed'
rm live.failed
# A link that leads to FILE: the failures are remembered beside FILE.
mkdir place
mv live place/live
ln -s place/live live
ends_with 2 change flag
rm live
mv place/live live
mv place/live.failed live.failed
remembers 'a link' "${head}flag up failed:3 TIME 2\n"
cd ..
