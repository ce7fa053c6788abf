# shellcheck shell=sh
# Machines for tests, each with its own processes, mounts, network and first process. The root of a
# machine is an overlay over the root of the host. What it writes goes into $room/NAME/upper, in
# memory, and the host's file systems are not mounted in it. Set before: room, program, contrib,
# supervisor.
passed=0
failed=0
machine=''
first=''
path=/usr/local/sbin:/usr/local/bin:/usr/sbin:/usr/bin:/sbin:/bin
exec 5<&0

# disk NAME: the disk of a machine. The directory of its services becomes the working directory.
disk() {
    disk=$room/$1
    mkdir -p "$disk/upper" "$disk/work" "$disk/on"
    # What the host has in these places is hidden.
    (
        mount -t overlay overlay \
            -o "lowerdir=/,upperdir=$disk/upper,workdir=$disk/work" "$disk/on"
        cd "$disk/on"
        for place in etc/undorc etc/runit var/undorc var/keep dev mnt; do
            rm -rf "$place"
            mkdir -p "$place"
        done
        cp -a "$contrib/machine" "$contrib/orderly" "$contrib/lint" etc/undorc
        cp -a "$tests/machine/says" etc/undorc/machine
        mkdir -p etc/undorc/services mnt/x usr/local/bin usr/local/sbin
        cp "$program" usr/local/bin/undorc
        for name in halt poweroff reboot; do
            ln -sf "$(command -v busybox)" "usr/local/sbin/$name"
        done
        cd /
        umount "$disk/on"
    )
    cd "$disk/upper/etc/undorc/services"
}

# start NAME COMMAND..: starts the machine of a disk with this first process
start() {
    disk=$room/$1
    shift
    env --default-signal=INT,QUIT unshare --fork --pid --mount --uts --ipc --net --kill-child \
        sh "$tests/machine/root.sh" "$disk" "$@" <&5 &
    machine=$!
    first=''
    turn=0
    while [ -z "$first" ] && [ "$turn" -lt 200 ]; do
        sleep 0.1
        first=$(sed 's/ .*//' "/proc/$machine/task/$machine/children" 2> /dev/null) || return 0
        turn=$((turn + 1))
    done
    # Its root and its /proc come a moment later.
    turn=0
    until inside test -d /etc/undorc/services -a ! -d /old -a -d /proc/1 2> /dev/null; do
        sleep 0.1
        turn=$((turn + 1))
        [ "$turn" -le 200 ] || return 0
    done
}

# start_scanner NAME: starts the machine of a disk with a first process that only scans
start_scanner() {
    case $supervisor in
        s6) scanner='exec s6-svscan /run/service' ;;
        # A shell makes its background jobs ignore INT.
        runit) scanner='while :; do env --default-signal=INT runsvdir -P /run/service & wait; done' ;;
    esac
    start "$1" env UNDORC_SUPERVISOR="$supervisor" PATH="$path" \
        sh -c "mount -t proc proc /proc; mkdir -p /run/service; exec 2> /run/caught; $scanner"
}

# inside COMMAND..: runs it in the machine
inside() {
    nsenter -t "$first" -p -m -u -i -n -r -w env -i PATH="$path" \
        UNDORC_SUPERVISOR="$supervisor" UNDORC_USUAL=30000 "$@"
}

# script TEXT: runs it in the machine, in the directory of undorc
script() {
    inside sh -c "cd /etc/undorc; $1"
}

# does TEXT: the same; prints what it prints and its status. Standard error goes to /run/told.
does() {
    script "{ $1; } 2> /run/told; echo \"status \$?\""
}

# told: what the last command wrote to standard error, without the lines of `-v`
told() {
    script 'grep -v "^undorc:" /run/told'
}

# daemon NAME: prints the process id of its daemon
daemon() {
    script "$(daemon_text "$1")"
}

# daemon_text NAME: prints the command that prints it
daemon_text() {
    case $supervisor in
        s6) echo "s6-svstat -o pid /run/service/$1" ;;
        # While a finish runs, that is the process there.
        runit)
            echo "grep -q ^run /run/service/$1/supervise/stat && cat /run/service/$1/supervise/pid"
            ;;
    esac
}

# read_shutdown: waits until the shutdown prints something, and opens its log as 7, which can be
# read after its file system is gone
read_shutdown() {
    log=/proc/$first/root/run/undorc/ending/log
    turn=0
    until [ -e "$log" ]; do
        turn=$((turn + 1))
        if [ "$turn" -gt 200 ]; then
            echo 'no shutdown begins'
            log=/dev/null
            stop
        fi
        sleep 0.1
    done
    exec 7< "$log"
}

# ask_runit 0|6: asks runit, as the first process, to halt or to reboot. Debian has this program
# outside of the path where runit is not the system's init.
ask_runit() {
    script "PATH=\$PATH:/lib/runit; runit-init $1"
}

# wait_end: waits until the machine ends, and leaves the status of its first process in `status`
wait_end() {
    status=0
    [ -z "$machine" ] || wait "$machine" 2> "$room/said" || status=$?
    machine=''
    first=''
}

# end_within SECONDS: the same, for a machine that may never end: it is killed then
end_within() {
    ending=$first
    (sleep "$1" && kill -KILL "$ending") 2> /dev/null &
    killer=$!
    wait_end
    kill "$killer" 2> /dev/null || true
}

# ask_end halt|reboot: asks the first process of a machine, or of a container, to end
ask_end() {
    case ${kind:-$supervisor}.$1 in
        s6.halt) kill -USR1 "$first" ;;
        runit.halt) ask_runit 0 ;;
        *) kill -TERM "$first" ;;
    esac
}

# within SECONDS TEXT: waits until TEXT succeeds in the machine
within() {
    turn=0
    until script "$2" > /dev/null 2>&1; do
        turn=$((turn + 1))
        [ "$turn" -le "$(($1 * 5))" ] || return 1
        sleep 0.2
    done
}

# stop: ends the machine at once
stop() {
    [ -z "$first" ] || kill -KILL "$first" 2> /dev/null || true
    [ -z "$machine" ] || wait "$machine" 2> /dev/null || true
    machine=''
    first=''
}

# is WHAT WANTED GOT
is() {
    if [ "$2" = "$3" ]; then
        passed=$((passed + 1))
        return
    fi
    failed=$((failed + 1))
    printf 'FAILED: %s: wanted [%s], got [%s]\n' "$1" "$2" "$3"
}

# step WHAT WANTED TEXT: what TEXT prints in the machine, and its status; after it the supervisor
# says of each longrun what the session says
step() {
    is "$1" "$2" "$(does "$3")"
    is "$1: the supervisor agrees with the session" '' "$(inside sh -s < "$tests/machine/agree.sh")"
}

# tally: the last line, and the status
tally() {
    stop
    echo "$passed passed, $failed failed, 0 skipped"
    [ "$failed" -eq 0 ] && [ "$passed" -gt 0 ]
}
