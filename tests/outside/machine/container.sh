# shellcheck shell=sh
# The first process of a container: statuses, signals, standard input, and a second start.
disk k
keep=$disk/upper/var/keep
longrun d 'trap "echo ended > /var/keep/d; exit" TERM
echo up > /var/keep/d
while :; do sleep 0.1; done'
longrun bad 'exit 1'
bundle default d
bundle partly d bad

# begin VARIABLE=VALUE.. -- WORD..: a container that runs so
begin() {
    set -- env UNDORC_SUPERVISOR="$supervisor" "$@"
    start k "$@"
}
# contain WHAT STATUS SIGNAL WORD..: the container ends so; it is sent SIGNAL, if any, once its
# command runs
contain() {
    what=$1 wanted=$2 signal=$3
    shift 3
    rm -f "$keep"/*
    begin sh -c 'mount -t proc proc /proc
        cd /etc/undorc
        undorc compile -o db services
        exec machine/first/container "$@" > /var/keep/out 2> /var/keep/err' sh "$@"
    if [ -n "$signal" ]; then
        within 30 'grep -qs -e "^raised" /var/keep/err && pgrep -f "^sleep (1000|0.2)"' || true
        kill "-$signal" "$first"
    fi
    wait_end
    is "$what" "$wanted" "$status"
    # Where the boot is refused, no daemon starts.
    [ "${1:-}.${2:-}" != '-n.nobody' ] || return 0
    is "$what: the daemon ended by TERM" ended "$(cat "$keep/d")"
}
contain 'a command that ends' 7 '' sh -c 'cat /var/keep/d; exit 7'
is 'its services are up before it' up "$(cat "$keep/out")"
exec 6<&5
echo words > "$room/words"
exec 5< "$room/words"
contain 'a command that reads' 0 '' cat
exec 5<&6
is 'it reads what the container is given' words "$(cat "$keep/out")"
contain 'no such command' 127 '' nosuch
contain 'a command that is ended by TERM' 143 TERM sleep 1000
contain 'a command that handles INT' 9 INT sh -c 'trap "exit 9" INT; while :; do sleep 0.2; done'
contain 'no command, and TERM' 0 TERM
contain 'a boot that fails in part' 111 '' -n partly sh -c 'echo ran'
is 'no command is run after it' '' "$(cat "$keep/out")"
contain 'a boot that is refused' 111 '' -n nobody true

# A container that is killed and started again keeps its files, those of the session among them.
for life in one two; do
    begin UNDORC_LIVE=/var/undorc/live UNDORC_PLACE=/var/undorc/services \
        UNDORC_SCAN=/var/undorc/scan sh -c 'mount -t proc proc /proc
            cd /etc/undorc
            undorc compile -o db services
            exec machine/first/container sh -c "cat /var/keep/d; [ $0 = two ] || sleep 1000" \
                > /var/keep/out 2> /var/keep/err' "$life"
    if [ "$life" = one ]; then
        within 30 'grep -q up /var/keep/out' || true
        stop
    fi
done
wait_end
is 'a container that was killed and is started again' '0 up ended' \
    "$status $(cat "$keep/out") $(cat "$keep/d")"
is 'it says what it moved' \
    'boot: /var/undorc/live is of an earlier boot; it is now /var/undorc/live.before' \
    "$(grep live.before "$keep/err")"

# A scanner that is killed leaves its supervisors: a longrun that an update removes takes its own along.
case $supervisor in
    s6) scanner='s6-svsca[n] /run/service' supervises='^s6-supervise' ;;
    runit) scanner='runsvdi[r] -P /run/service' supervises='^runsv' ;;
esac
longrun "$disk/upper/etc/undorc/services/gone" 'exec sleep 1000'
bundle "$disk/upper/etc/undorc/services/default" d gone
rm -f "$keep"/*
begin sh -c 'mount -t proc proc /proc
    cd /etc/undorc
    undorc compile -o db services
    exec machine/first/container > /var/keep/out 2> /var/keep/err'
within 30 'grep -qs -e "^raised" /var/keep/err' || true
is 'the scanner is killed, and another one comes' yes "$(script "was=\$(pgrep -of '$scanner')
    kill -KILL \$was
    timeout 30 sh -c 'until now=\$(pgrep -f \"$scanner\") && [ \"\$now\" != '\$was' ]; do sleep 0.1; done' && echo yes")"
is 'an update removes a longrun' 'lowered gone
ok
ok
status 0' "$(does 'rm -r services/gone; echo d > services/default/contents
    undorc compile -o new services; machine/manage update -B new')"
within 20 "! pgrep -f '$supervises gone\$'" || true
is 'its supervisor has ended' '1 0' \
    "$(script "echo \$(pgrep -fc '$supervises d\$') \$(pgrep -fc '$supervises gone\$')")"
kill -TERM "$first"
end_within 30
is 'the container ends' 0 "$status"
