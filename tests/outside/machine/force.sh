# shellcheck shell=sh
# A shutdown that ends: a daemon that ignores TERM on a mount, a script that fails, one that hangs,
# and a session that another program holds.
disk f
oneshot mnt 'mount -t tmpfs x /mnt/x' 'umount /mnt/x'
: > mnt/flag-essential
longrun deaf "cd /mnt/x; trap '' TERM; while :; do sleep 1; done" mnt
longrun above 'exec sleep 1000' deaf
longrun good 'exec sleep 1000' mnt
longrun there 'cd /mnt/x; exec sleep 1000' good
longrun loner "trap '' TERM; while :; do sleep 1; done"
oneshot bad true 'echo no >&2; exit 3' mnt
oneshot hang true 'sleep 1000' mnt
# Half of it is left for what a second pass does when it has killed a daemon.
timeout_of 10000 deaf hang
bundle default above good bad hang
start_scanner f
step 'boot' 'status 0' 'undorc compile -o db services; machine/boot > /run/x'
begun=$(date +%s)
step 'shutdown' 'lowered above good
failed bad deaf hang
blocked mnt
ok
lowered bad deaf hang mnt
ok
status 2' machine/shutdown
is 'it ends within 60 s' yes "$([ $(($(date +%s) - begun)) -gt 60 ] || echo yes)"
is 'it names what it forced' 'down bad: status 3
down deaf: killed
down hang: status 124
shutdown: by force now: bad deaf hang mnt' \
    "$(told | grep -x -e 'shutdown: .*' -e 'down .*: killed' -e 'down .*: status .*' | sort)"
is 'nothing is up, and nothing is mounted' 'live no' \
    "$(script 'echo $(machine/manage live | head -n 1) $(mountpoint -q /mnt/x || echo no)')"
step 'drift' 'status 0' machine/drift
# A command is killed while a daemon with its directory on the mount is on its way up.
step 'a shutdown after a command that was killed' 'lowered good mnt there
ok
status 0' 'machine/manage change good > /run/x
    UNDORC_SETTLE=20 machine/manage change there > /run/x 2> /run/y & manager=$!
    timeout 20 sh -c "until machine/says | grep -q \"^there up\"; do sleep 0.05; done"
    kill -KILL $manager; wait $manager; machine/shutdown'
is 'it enters what was moved, and what has come up since' 'undorc: Recovered' "$(script 'grep -x -e "shutdown: .*" -e "undorc: Recovered" /run/told | sort')"
is 'nothing is mounted behind it' no "$(script 'mountpoint -q /mnt/x || echo no')"
step 'a daemon that ignores TERM is started by hand' 'failed loner
ok
lowered loner
ok
status 2' "export UNDORC_USUAL=10000 UNDORC_GRACE=1000
    case $supervisor in
        s6) s6-svc -wu -u /run/service/loner ;;
        runit) sv -w 20 up /run/service/loner > /run/x ;;
    esac
    machine/shutdown"
is 'it is killed' 'down loner: killed
shutdown: by force now: loner
shutdown: loner is up, and is not live' "$(told | grep loner | grep -v '^down loner: ended by a signal' | sort)"
step 'a shutdown where all goes well' 'lowered good mnt
ok
status 0' 'machine/manage change good > /run/x; machine/shutdown'
step 'a shutdown of nothing' 'ok
status 0' machine/shutdown
step 'a session that another program holds' 'status 111' '
    flock /run/undorc/live.lock sleep 30 > /dev/null 2>&1 &
    while flock -n /run/undorc/live.lock true; do sleep 0.1; done
    UNDORC_SHUTDOWN=2000 machine/shutdown'
is 'it says so' 'shutdown: another program holds /run/undorc/live; nothing was brought down' \
    "$(told)"
is 'only its owner may hold the lock' 600 "$(script 'stat -c %a /run/undorc/live.lock')"
stop
