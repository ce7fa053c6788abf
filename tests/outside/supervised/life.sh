# shellcheck shell=sh
# The life of a machine: a boot, services that fail, an undo and a redo, what is killed, what somebody does by hand, and a
# shutdown. After each command the supervisor says what live says. machine.sh reads this file.
oneshot root
: > services/root/flag-essential
oneshot net root
logs log "$room/fifo"
echo app > services/log/consumer-for
longrun app "exec 1<> $room/fifo; while :; do echo line; sleep 0.2; done" net
echo log > services/app/producer-for
ready_after slow 2
needs slow net
longrun web 'exec sleep 1000' slow app
bundle default web

never_ready never
echo 1000 > services/never/timeout-up
longrun crash 'exit 7'
longrun late 'sleep 0.3; exit 7'
lame lame
longrun above 'exec sleep 1000' crash
longrun spare 'exec sleep 1000' root
bundle broken above lame late never spare
deaf deaf
echo 3000 > services/deaf/timeout-down
compiles
scans

does 0 'raised app log net root slow web\nok\n' "$folder/boot"
does 1 'refused NothingToUndo\n' "$folder/manage" undo
does 0 'ok\n' "$folder/boot"
does 0 'lowered app web\nok\nraised app web\nok\n' "$folder/manage" restart app
does 0 'app up\nweb up\n' "$folder/manage" status web app

# What fails is down and is not tried again; an undo takes back what came up beside it, and a redo brings that up again.
does 2 'raised spare\nfailed crash lame late never\nblocked above\nok\n' "$folder/manage" change broken
grep -q 'up never: timed out$' told || echo 'no time-out was told' >> told
holds 'a limit is told as one' grep -q 'up never: timed out$' told
does 0 'lowered spare\nok\n' "$folder/manage" undo
does 0 'raised spare\nok\n' "$folder/manage" redo
does 1 'refused NothingToRedo\n' "$folder/manage" redo
does 1 'refused Unknown nobody\n' "$folder/manage" change nobody

# What does not go down within its limit is up, and is kept up.
does 0 'raised deaf\nok\n' "$folder/manage" change deaf
does 2 'failed deaf\nok\n' "$folder/manage" undo
: > hears
does 0 'lowered deaf\nok\n' "$folder/manage" undo

# A supervisor that is killed: the next one finds the wish, and the next command what it needs.
kills_supervisor app
kills_supervisor deaf
until_so is_state deaf down
agrees 100 > err
: > out
wants '' ''
echo 0 > status
judges 'supervisors that are killed' 0
orphans app
does 0 'lowered app web\nok\n' "$folder/manage" change -d app
does 0 'raised app web\nok\n' "$folder/manage" change web

# A session that is killed while slow is on its way: its controller goes on, and live does not know of it. That is told, and
# the next command asks the controller, which says that slow is up.
does 0 'lowered slow web\nok\n' "$folder/manage" change -d slow
"$folder/manage" change web > out 2> told &
session=$!
until_so is_state slow up
kill -KILL "$session"
wait "$session" 2> killed || true
until_so is_state slow up
# It looks twice at what is live.
cut='undorc: a command was cut short: the next one enters what it has moved\n'
wants 'slow not live, but up\n' "$cut$cut"
echo 0 > status
"$folder/drift" > out 2> err || echo $? > status
judges 'drift behind a session that was killed' 1
does 0 'raised web\nok\n' "$folder/manage" change web

# A signal calls a change off: slow comes up, web is not tried, and neither undorc nor a controller is left. Where env can't
# block signals, it is the same.
# commands: the processes of a command
commands() {
    for process in $(ours); do { tr '\0' ' ' < "/proc/$process/cmdline" && echo; } 2> killed || true; done > left
    grep -e "$program change" -e "$folder/controller" left || true
}
# called_off SIGNAL PATH
called_off() {
    does 0 'lowered slow web\nok\n' "$folder/manage" change -d slow
    PATH=$2 UNDORC_PATH=$2 "$folder/manage" change web > out 2> told &
    session=$!
    until_so is_state slow up
    kill "-$1" "$session"
    echo 0 > status
    wait "$session" || echo $? > status
    agrees 20 > err
    commands >> err
    wants 'raised slow\nuntried web\nok\n' ''
    judges "a change that is sent $1" 2
    does 0 'raised web\nok\n' "$folder/manage" change web
}
mkdir plain
printf '#!/bin/sh\ncase $1 in --*) exit 1 ;; esac\nexec %s "$@"\n' "$(command -v env)" > plain/env
chmod +x plain/env
for signal in TERM INT HUP; do called_off "$signal" "$PATH"; done
called_off TERM "$room/plain:$PATH"

# drifts STATUS LINES: what drift says
drifts() {
    wants "$2" ''
    echo 0 > status
    "$folder/drift" > out 2> err || echo $? > status
    judges 'drift' "$1"
}
drifts 0 ''
by_hand down web
by_hand up deaf
drifts 1 'deaf not live, but up\nweb live, but down\n'
by_hand up web
by_hand down deaf
drifts 0 ''
# runsvdir ends what it finds no more; s6 is told to.
if [ "$supervisor" = s6 ]; then
    mv scan/spare elsewhere
    drifts 1 'spare live, but unknown\n'
    mv elsewhere scan/spare
fi

# An update moves what needs something else, and what needs that: the others are the processes that they were.
# numbers NAME..: the process numbers of these longruns
numbers() { for name; do number "$name"; done; }
# A limit and a script count from the next transition on, and a oneshot goes on by another name.
numbers app log slow spare web > numbers.before
echo 30000 > services/web/timeout-up
echo ': another' > services/net/up
mv services/net services/lan
echo "rm $room/flags/lan" > services/lan/down
sed -i 's/^net$/lan/' services/*/dependencies
echo 'net -> lan' > renames
"$program" compile -o new services
echo 0 > status
: > err
"$folder/manage" update -B "$room/new" -f renames > out 2> told || echo $? > status
wants 'ok\nok\n' ''
judges 'an update of a limit, a script and a name' 0
numbers app log slow spare web > numbers.after
holds 'an update of a limit, a script and a name moves nothing' cmp -s numbers.before numbers.after
# The mark of what was up is that of the service that it is now.
mv flags/net flags/lan
sed -i 's/^net$/lan/' names.oneshots
numbers app log slow spare > numbers.before
echo spare >> services/web/dependencies
"$program" compile -o new services
"$folder/manage" update -B "$room/new" -n > out 2> err
wants 'lower web\nok\nraise web\nok\n' 'undorc: web moves: its dependencies changed\n'
echo 0 > status
judges 'an update that is shown' 0
: > err
"$folder/manage" update -B "$room/new" > out 2> told || echo $? > status
wants 'lowered web\nok\nraised web\nok\n' ''
judges 'an update' 0
numbers app log slow spare > numbers.after
holds 'an update leaves the processes alone that it does not name' cmp -s numbers.before numbers.after
does 0 'ok\n' "$folder/manage" change web

# A longrun is restarted, with what needs it.
numbers app log spare > numbers.before
"$program" compile -o new services
: > err
"$folder/manage" update -B "$room/new" -R slow > out 2> told || echo $? > status
wants 'lowered slow web\nok\nraised slow web\nok\n' ''
judges 'an update that restarts' 0
numbers app log spare > numbers.after
holds 'an update leaves the processes alone that it does not restart' cmp -s numbers.before numbers.after

does 0 'lowered app lan log root slow spare web\nok\n' "$folder/shutdown"
does 0 'ok\n' "$folder/shutdown"
