# shellcheck shell=sh
# The set of 57 services, with nothing edited. A machine with a real first process boots it, changes,
# undoes, updates, loses a command and a supervisor, shuts down, and boots again. After each step the
# supervisor says what the session says.
disk s

# shellcheck source=fifty.sh
. "$tests/machine/fifty.sh"
# `contained` sets `kind`.
case ${kind:-$supervisor} in
    s6) begin=/etc/undorc/machine/first/s6/stage1 ;;
    runit)
        begin=runit
        cp -a "$contrib"/machine/first/runit/* "$disk/upper/etc/runit/"
        ;;
    container)
        # Its daemons get the time that they get on a machine.
        begin="env UNDORC_SUPERVISOR=$supervisor UNDORC_PATIENCE=30000 UNDORC_GRACE=5000 \\
            machine/first/container > /run/said 2>&1"
        ;;
esac

# boots WHAT: a first process boots the set
boots() {
    case ${kind:-machine} in
        machine) log=/run/undorc/boot.log ends='boot: status 0' ;;
        container) log=/run/said ends=ok ;;
    esac
    start s sh -c "mountpoint -q /proc || mount -t proc proc /proc
        cd /etc/undorc; [ -e db ] || undorc compile -o db services; exec $begin"
    within 60 "grep -q -e '^boot: status' -e '^$ends\$' -e '^container:' $log" || true
    step "$1" "$ends
status 0" "tail -n 1 $log"
    [ "$(script "tail -n 1 $log")" = "$ends" ] || script "grep -v 'ok\$\|started\$' $log"
}
# supervisor_of NAME: prints the process id of what supervises it
supervisor_of() {
    case $supervisor in
        s6) script "pgrep -f '^s6-supervise $1\$'" ;;
        runit) script "pgrep -f '^runsv $1\$'" ;;
    esac
}

boots 'boot'
step 'drift finds nothing' 'status 0' machine/drift
within 20 'set -- /run/log/*/current; [ $# -eq 11 ] || exit
    for log; do [ -s "$log" ] || exit; done' || true
is 'each pipeline has its log' \
    'archive dbus klogd nginx ntpd php-fpm postgres redis sshd syslogd udevd ' \
    "$(script 'cd /run/log; for log in *; do [ ! -s $log/current ] || printf "%s " $log; done')"
case ${kind:-machine} in
    machine) caught=/run/undorc/caught/current ;;
    container) caught=/run/said ;;
esac
is 'nothing of them is in the catch-all log' 0 "$(script "grep -c works $caught")"
step 'a daemon that crashes' 'failed flaky
ok
status 2' 'UNDORC_SETTLE=3 machine/manage change flaky'
step 'a change' 'lowered nginx nginx-log php-fpm postgres
ok
status 0' 'machine/manage change -d postgres php-fpm nginx-log | sed "s/ postgres-log//"'
step 'its undo' 'raised nginx nginx-log php-fpm postgres
ok
status 0' 'machine/manage undo'

# A command that is killed while a daemon is on its way: given again, it finds that the daemon has come there.
script 'machine/manage change -d slow > /run/x 2>&1 & manager=$!
    timeout 20 sh -c "until machine/says slow | grep -qx \"slow up\"; do sleep 0.05; done"
    kill -KILL "$manager"; wait "$manager"; sleep 3' 2> "$room/said"
step 'a command after one that was killed' 'ok
status 0' 'machine/manage change -d slow'
step 'the machine is whole again' 'raised slow
ok
status 0' 'machine/manage change default'
orphan=$(daemon sshd)
is 'a supervisor is killed' yes "$(script "kill -KILL $(supervisor_of sshd) && echo yes")"
case $supervisor in s6) supervised='s6-svok' ;; runit) supervised='sv status' ;; esac
is 'the scanner starts it again' yes \
    "$(within 10 "[ \$($(daemon_text sshd)) != $orphan ] && $supervised /run/service/sshd" &&
        echo yes)"
script "kill -KILL $orphan"
step 'drift finds nothing behind it' 'status 0' machine/drift

# A limit, a script and a name move nothing: all daemons are the processes that they were.
processes() {
    case $supervisor in
        s6) script 'for one in /run/service/*; do s6-svstat -o pid "$one"; done' ;;
        runit) script 'cat /run/service/*/supervise/pid' ;;
    esac
}
processes > "$room/before"
is 'there are daemons' yes "$([ "$(wc -l < "$room/before")" -gt 20 ] && echo yes)"
step 'an update: a limit, a script and a name' 'ok
ok
status 0' 'echo 60000 > services/route/timeout-up; echo "# again" >> services/swap/up
    mv services/seed services/entropy; sed -i "s/^seed\$/entropy/" services/basic/contents
    echo "seed -> entropy" > renames
    undorc compile -o new services; machine/manage update -B new -f renames'
processes > "$room/after"
is 'it moves nothing' '' "$(diff "$room/before" "$room/after")"
step 'an update: a changed run, one that is gone, and one that is new' 'lowered crond ntpd
ok
raised ntpd
ok
status 0' 'sed -i "2i # renewed" services/ntpd/run; echo swap >> services/ntpd/dependencies
    rm -r services/crond; sed -i /crond/d services/default/contents
    mkdir services/cups; cp services/acpid/type services/acpid/run services/cups/
    undorc compile -o new services; machine/manage update -B new'
is 'it runs its new run' 1 "$(script 'grep -c renewed /run/service/ntpd/run.own')"
is 'what is gone is out of the supervisor' no \
    "$(script 'ls -d /run/service/crond 2> /dev/null || echo no')"
step 'what is new comes up' 'raised cups
ok
status 0' 'machine/manage change cups'
step 'drift finds nothing again' 'status 0' machine/drift

# ends WHAT FORCED: the first process is asked to halt; FORCED is what the shutdown says
ends() {
    case ${kind:-$supervisor} in
        s6) kill -USR1 "$first" ;;
        runit) ask_runit 0 ;;
        container) kill -TERM "$first" ;;
    esac
    case ${kind:-machine} in
        machine) ended=130 && read_shutdown ;;
        container) ended=0 && exec 7< "/proc/$first/root/run/said" ;;
    esac
    wait_end
    is "$1" "$ended" "$status"
    is "$1: what is forced" "$2" "$(grep -x -e 'down .*: killed' -e '.*shutdown.* status .*' <&7 |
        sed 's/^container: the shutdown ended with/shutdown:/' | tr '\n' ,)"
    exec 7<&-
}
ends 'the end' 'down legacy: killed,shutdown: status 2,'
boots 'boot of the updated set'
step 'a shutdown by hand' 'live
status 2' 'machine/shutdown > /run/x; ended=$?; machine/manage live | head -n 1; (exit $ended)'
case ${kind:-machine} in
    machine) ends 'its end' 'shutdown: status 0,' ;;
    container) ends 'its end' '' ;;
esac
