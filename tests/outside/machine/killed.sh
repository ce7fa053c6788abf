# shellcheck shell=sh
# A boot, 20 commands that are killed at random times, three updates of which one is undone, and a
# shutdown: after each next command, the supervisor, what the oneshots have done, and the session agree.
disk q
# marked NAME [NEED..]: a oneshot that takes a while, and leaves a file
marked() {
    name=$1
    shift
    oneshot "$name" "sleep 0.4; : > /run/marks/$name" "sleep 0.4; rm -f /run/marks/$name" "$@"
}
oneshot marks 'mkdir -p /run/marks; : > /run/marks/marks' 'rm -f /run/marks/marks'
marked net marks
marked disk marks
marked time net
for name in web db; do longrun "$name" 'exec sleep 1000' net disk; done
longrun slow "trap 'sleep 1; exit 0' TERM; while :; do sleep 0.1; done" time
longrun chat 'while :; do echo works; sleep 0.5; done' web
longrun log 'exec s6-log -b n3 s100000 /run/log'
pipe chat log
longrun top 'exec sleep 1000' db slow
bundle default chat top
case $supervisor in
    s6) begin=/etc/undorc/machine/first/s6/stage1 ;;
    runit)
        begin=runit
        cp -a "$contrib"/machine/first/runit/* "$disk/upper/etc/runit/"
        ;;
esac
# differ: prints each service that is not what the session says
differ() {
    inside sh -s < "$tests/machine/agree.sh"
    script 'live=" $(undorc live -b db -l /run/undorc/live | head -n 1) "
        undorc db -b db list oneshots | while read -r name; do
            mark=down is=down
            [ ! -e "/run/marks/$name" ] || mark=up
            case $live in *" $name "*) is=up ;; esac
            [ "$mark" = "$is" ] || echo "$name: $mark, and the session says $is"
        done'
}
# random BELOW: prints a number
random() {
    echo $(($(od -An -N 2 -t u2 /dev/urandom) % $1))
}
# any WORD..: prints one of them
any() {
    shift "$(random $#)"
    echo "$1"
}

start q sh -c "cd /etc/undorc; undorc compile -o db services; exec $begin"
within 60 'grep -q "^boot: status" /run/undorc/boot.log' || true
is 'boot' 'boot: status 0' "$(script 'tail -n 1 /run/undorc/boot.log')"
is 'all agree' '' "$(differ)"
round=0
while [ "$round" -lt 20 ]; do
    round=$((round + 1))
    one=$(any net disk time web db slow chat log top)
    command=$(any 'change default' "change $one" "change -d $one" "change -d $one" undo redo "restart $one")
    script "machine/manage $command > /run/said 2>&1 & sleep 0.$(random 10)$(random 10); sleep $(random 2)
        kill -KILL \$(pgrep -x undorc -P \$!) \$!; wait \$!
        machine/manage change > /run/x 2> /run/told" 2> "$room/said" || true
    is "kill $round, of $command: all agree" '' "$(differ)"
done
is 'all is up again' 'status 0' "$(does 'machine/manage change default > /run/x')"
is 'all agree with that' '' "$(differ)"
# On a busy machine a script or a controller may begin when its command is killed already.
script 'for file in controller oneshot; do
    sed -i "2i if rm /run/late; then until [ -e /run/go ]; do sleep 0.1; done; fi 2> /run/x" "machine/$file"
done'
for one in chat time; do
    script "machine/manage change -d $one; rm -f /run/go; : > /run/late
        machine/manage change $one & manager=\$!
        timeout 20 sh -c 'while [ -e /run/late ]; do sleep 0.05; done'
        kill -KILL \$manager; wait \$manager; (sleep 1; : > /run/go) & machine/manage change; wait" > "$room/said" 2>&1
    is "what starts $one late starts nothing: all agree" '' "$(differ)"
    is "$one comes up again" 'status 0' "$(does 'machine/manage change default > /run/x')"
done
# The recovery from a killed command is killed, too.
script 'machine/manage change -d time; machine/manage change time & manager=$!
    timeout 20 sh -c "until pgrep -f \": > /run/marks/tim[e]\"; do sleep 0.05; done"
    kill -KILL $manager; wait $manager; machine/manage change & manager=$!
    timeout 20 sh -c "until [ -e /run/undorc/live.trial ]; do sleep 0.02; done"
    kill -KILL $manager $(pgrep -x undorc); wait $manager; machine/manage change' > "$room/said" 2>&1
is 'a killed recovery is finished by the next command: all agree' '' "$(differ)"
is 'all is up once more' 'status 0' "$(does 'machine/manage change default > /run/x')"
for turn in 1 2 3; do
    is "update $turn" 'status 0' "$(does "echo '# $turn' >> services/web/run
        case $turn in 2) echo disk >> services/time/dependencies ;; esac
        undorc compile -o new services && machine/manage update -B new -R web > /run/x")"
    is "update $turn: all agree" '' "$(differ)"
done
is 'undo of an update' 'status 0' "$(does 'machine/manage undo > /run/x')"
is 'all agree again' '' "$(differ)"
is 'the shutdown' 'status 0' "$(does 'machine/shutdown > /run/x')"
is 'all agree that nothing is up' ' live' "$(differ) $(script 'machine/manage live | head -n 1')"
ask_end halt
end_within 60
is 'the end' 130 "$status"
