# What the last script of each service wrote, where -o names a directory. program.sh reads this file.
# shellcheck source=../trees.sh
. "$here/trees.sh"
mkdir outputs
cd outputs
mkdir -m 700 kept

# `two` writes to both streams, `bad` ends its last line with nothing, `slow` takes too long, `mute` fails without a word,
# `many` writes fifteen lines, and `leaves` leaves a process behind that waits for the file `go`.
begin_tree
oneshot two 'echo one; echo two >&2; echo three'
down two 'echo gone'
oneshot bad 'echo begins; printf "no such\033[31m host"; exit 3'
oneshot slow 'echo waits; sleep 30'
limit slow 100
oneshot mute 'exit 4'
oneshot many 'n=0; while [ $n -lt 15 ]; do n=$((n + 1)); echo "line $n"; done'
oneshot leaves 'while [ ! -e go ]; do sleep 0.02; done & echo left'
longrun ctl
"$program" compile tree > made

# kept_is WHAT NAME LINES: the file of a service has these lines
kept_is() {
    cp "kept/$2" left
    printf '%b' "$3" > left.wanted
    same "$1"
}
# tells_of STATUS ANSWERS LINES WORDS..: a command on this session, what it answers, and what it tells but for the times
tells_of() {
    told_status=$1 told_lines=$3
    wants "$2" ''
    shift 3
    : > in
    runs "$@" -b made -l live
    sed -E 's/^undorc: +[0-9]+\.[0-9]{3} s  /undorc: /' err > left
    printf '%b' "$told_lines" > left.wanted
    : > err
    same "what undorc $* tells"
    judge "undorc $*" "$told_status"
}

# Both streams are kept, and each script begins with an empty file. A report of a failure ends with its last line.
tells_of 2 'raised two\nfailed bad\nok\n' 'undorc: up bad: failed 3: no such\\u{1b}[31m host\n' change -o kept two bad
kept_is 'both streams' two 'one\ntwo\nthree\n'
kept_is 'a line without an end' bad 'begins\nno such\033[31m host'
tells_of 2 'failed slow\nok\n' 'undorc: up slow: timed out: waits\n' change -o kept slow
tells_of 2 'failed mute\nok\n' 'undorc: up mute: failed 4\n' change -o kept mute
kept_is 'no line' mute ''
tells_of 0 'lowered two\nok\n' '' stop -o kept two
kept_is 'the last script alone' two 'gone\n'
holds 'the files are their owner'"'"'s alone' test "$(stat -c %a kept/two)" = 600
# A controller is a script, too.
printf '#!/bin/sh\necho "$@"\nexit 1\n' > ctl
chmod +x ctl
tells_of 2 'failed ctl\nok\n' 'undorc: up ctl: failed 1: up ctl\n' change -o kept -c ./ctl ctl
# What a script leaves behind delays nothing, and writes to the same file.
tells_of 0 'raised leaves\nok\n' '' change -o kept leaves
: > go
kept_is 'of what is left behind' leaves 'left\n'

# With -v the lines of a script follow its start, with the name of its service.
tells_of 2 'raised many two\nfailed bad\nok\n' \
    "undorc: up bad: started\n  bad: begins\n  bad: no such\\\\u{1b}[31m host\nundorc: up bad: failed 3: no such\\\\u{1b}[31m host
undorc: up many: started\n$(n=0; while [ $n -lt 15 ]; do n=$((n + 1)); printf '  many: line %s\\n' $n; done)undorc: up many: ok
undorc: up two: started\n  two: one\n  two: two\n  two: three\nundorc: up two: ok\n" change -w 1 -v -o kept bad many two
# -q tells nothing, and keeps the lines all the same.
tells_of 2 'failed mute\nok\n' '' change -q -o kept mute
# A session keeps them, too, and -P shows them.
wants 'lowered two\nok\n' '  two: gone\n'
echo '-d change two' > in
runs session -b made -l live -P -o kept
sed -i '/^undorc: /d' err
judge 'a session that keeps what scripts write' 0
# So do an undo, a restart, and an update.
tells_of 0 'raised two\nok\n' '' undo -o kept
kept_is 'an undo' two 'one\ntwo\nthree\n'
tells_of 0 'lowered two\nok\nraised two\nok\n' '' restart -o kept two
tells_of 0 'ok\nok\n' '' update -B made -o kept
tells_of 0 'lowered two\nok\nraised two\nok\n' '' update -B made -R two -o kept
kept_is 'an update' two 'one\ntwo\nthree\n'
# -x and -n start nothing, and look at no directory.
expect 0 'raised two\nok\n' '' '' change -x none -o nothing -b made two
expect 0 'raise two\nok\n' '' '' change -n -o nothing -b made two

# status -v prints the last ten lines of the services that are named.
: > in
shown_many=$(n=5; while [ $n -lt 15 ]; do n=$((n + 1)); printf '  line %s\\n' $n; done)
status_of() {
    status_wanted=$1
    wants "$2" "$3"
    shift 3
    runs status -b made -l live "$@"
    sed -i -E 's/[0-9]{4}-[0-9]{2}-[0-9]{2}T[0-9]{2}:[0-9]{2}:[0-9]{2}Z/TIME/; s/ TIME [0-9]+/ TIME N/' out
    judge "undorc status $*" "$status_wanted"
}
status_of 0 "many up -\ntwo up -\ntwo wrote:\n  one\n  two\n  three\nmany wrote:\n$shown_many" '' -v -o kept two many
status_of 3 'bad failed up failed:3 TIME N -\nbad wrote:\n  begins\n  no such\\u{1b}[31m host\n' '' -v -o kept bad
status_of 3 'mute failed up failed:4 TIME N -\n' '' -v -o kept mute
status_of 0 'two up -\n' '' -v two
status_of 0 'two up\n' '' -o kept two
status_of 1 'refused Unknown nobody\n' '' -v -o kept nobody
UNDORC_OUTPUT=kept status_of 0 'two up -\ntwo wrote:\n  one\n  two\n  three\n' '' -v two
rm kept/two
status_of 0 'two up -\n' '' -v -o kept two
# Of a long file its end is looked at.
head -c 100000 /dev/zero | tr '\0' 'x' > kept/two
printf '\nlast\n' >> kept/two
status_of 0 "two up -\ntwo wrote:\n  $(head -c 65530 /dev/zero | tr '\0' 'x')\n  last\n" '' -v -o kept two

# What is no plain file of the user is left alone: nothing of it is emptied, and the service comes up all the same.
echo precious > other
for what in 'ln -s ../other kept/two' 'ln other kept/two' 'mkfifo kept/two' 'mkdir kept/two'; do
    rm -rf kept/two
    $what
    case $what in
        'ln other'*) why='has another name' ;;
        *) why='is no plain file' ;;
    esac
    tells_of 0 'lowered two\nok\n' "undorc: kept/two: $why: its output is not kept\n" stop -o kept two
    tells_of 0 'raised two\nok\n' "undorc: kept/two: $why: its output is not kept\n" undo -o kept
    status_of 0 'two up -\n' "undorc: kept/two: $why: it is left out\n" -v -o kept two
    cp other left
    echo precious > left.wanted
    same "a file behind $what"
done
rm -rf kept/two

# The directory is looked at before anything moves.
mkdir -m 777 open
mkdir -m 770 group
cp live before
# unfit DIR WHY: a command with this directory is a failure of the system, and moves nothing
unfit() {
    wants '' 'undorc: Io\n'
    : > in
    runs stop -o "$1" -b made -l live two
    cp err told
    judge "undorc stop -o $1" 111
    holds "$1 is refused: $2" grep -q "^  $1: $2\$" told
    cp live left
    cp before left.wanted
    same "nothing moves with $1"
}
unfit nothing 'no such file or directory'
unfit made 'is no directory'
unfit open 'everyone may write into it'
unfit . 'the file of the session is in it'
if [ "$(id -u)" -eq 0 ]; then
    mkdir -m 700 theirs
    chown 65534 theirs
    unfit theirs 'belongs to another user'
fi

# The variable is a default, which an option goes before and an empty one is none of.
mkdir -m 700 usual
UNDORC_OUTPUT=usual tells_of 0 'lowered two\nok\n' '' stop two
UNDORC_OUTPUT=usual tells_of 0 'raised two\nok\n' '' start -o kept two
UNDORC_OUTPUT='' tells_of 0 'lowered two\nok\n' '' stop two
cp usual/two left
echo gone > left.wanted
same 'the directory of the environment'
UNDORC_OUTPUT=usual expect 0 'raised two\nok\n' '' '' change -x none -b made two
# A report after a call-off has the time that has passed, and not that of the gate's clock, which stands at its end.
rm -f go
oneshot held ': > begun; until [ -e go ]; do sleep 0.02; done; exit 1'
"$program" compile tree > made
"$program" change -v held -b made -l other.live > out 2> err < /dev/null &
changing=$!
for turn in $(seq 250); do
    [ ! -e begun ] || break
    sleep 0.02
done
"$program" cancel -l other.live 2> told
: > go
wait "$changing" || true
holds 'a report after a call-off has a real time' grep -q -E '^undorc: +[0-9]{1,2}\.[0-9]{3} s  up held: failed 1$' err
cd ..
