# shellcheck shell=sh
# Functions that run undorc, wait for something, and end processes.

# become_undorc COMMAND OPTION..: runs it with the files of this machine in place of this script,
# so that signals reach it. orderly stands above this directory. Scripts and controllers get the same
# environment, whoever calls.
become_undorc() {
    if ! UNDORC_PROGRAM=$(command -v "$UNDORC_PROGRAM"); then
        echo 'manage: UNDORC_PROGRAM names no program' >&2
        exit 111
    fi
    command=$1
    shift
    # The option -r of check is another one, so check gets its runner by the environment.
    [ "$command" = check ] || set -- -r "$here/oneshot" "$@"
    set -- "PATH=$UNDORC_PATH" "UNDORC_LOCK=$UNDORC_LIVE.lock" "$here/../orderly" \
        "$command" -b "$UNDORC_DB" -l "$UNDORC_LIVE" -W -v \
        -c "$here/controller" -T "$UNDORC_USUAL" -w "$UNDORC_WORKERS" "$@"
    [ "$command" != check ] || set -- "UNDORC_SCRIPTS=$UNDORC_RUNNER" "UNDORC_RUNNER=$here/oneshot" "$@"
    for variable in $settings UNDORC_FORCE $UNDORC_PASS; do
        case $variable in *[!A-Za-z0-9_]* | [0-9]*) continue ;; esac
        eval "[ -z \"\${$variable+is}\" ] || set -- \"$variable=\$$variable\" \"\$@\""
    done
    # The shells of Linux have it.
    # shellcheck disable=SC3045
    ulimit -n "$UNDORC_FILES" 2> /dev/null || true
    exec env -i "$@"
}

# check [OPTION..] [NAME..]: asks the controller about these services, or all
check() {
    "$UNDORC_PROGRAM" check -c "$here/controller" "$@"
}

# longruns_of DB: prints the names of its longruns
longruns_of() {
    "$UNDORC_PROGRAM" db -b "$1" list longruns
}

# live_names: prints the names of all that is up
live_names() {
    stand=$("$UNDORC_PROGRAM" status) && printf '%s\n' "$stand" | sed -n 's/ up$//p'
}

# is_free: whether no program holds the session
is_free() {
    [ ! -e "$UNDORC_LIVE.lock" ] || flock -s -n "$UNDORC_LIVE.lock" true
}

# is_left: whether another undorc has the session than the one that has started this script or controller, and
# was killed. What begins late, as on a busy machine, ends at once.
is_left() {
    read -r owner _ < "${UNDORC_LOCK:-/nowhere}" && [ "$owner" != "$PPID" ]
} 2> /dev/null

# is_in NAMES NAME: whether NAME is one of the lines NAMES
is_in() {
    printf '%s\n' "$1" | grep -qxF -e "$2"
}

# attend COMMAND..: runs a command; a signal is handled at once, and not after the command. A shell that waits
# writes `Terminated` where a signal has ended the command.
attend() {
    "$@" &
    child=$!
    wait "$child" 2> /dev/null
}

# wait_for PID: waits until it has ended, whatever signals come, and leaves its status in `status`
wait_for() {
    while status=0 && wait "$1" || status=$?; kill -0 "$1"; do :; done 2> /dev/null
}

# call_off: what a signal does to a command of `run`: it is called off, or not started
call_off() {
    is_off=yes
    [ -z "$child" ] || kill -TERM "$child" 2> /dev/null || true
}

# catch_signals: makes HUP, INT and TERM call off what `run` runs
catch_signals() {
    child='' is_off=''
    trap call_off HUP INT TERM
}

# run COMMAND..: runs a command that TERM calls off, and leaves its status in `status`
run() {
    "$@" &
    child=$!
    # A signal may have come just before that.
    [ -z "$is_off" ] || call_off
    wait_for "$child"
    child=''
    # TERM came before undorc had begun.
    [ "$is_off.$status" != yes.143 ] || status=2
}

# clock: sets `now` to hundredths of a second, by a clock that does not jump
clock() {
    read -r now _ < /proc/uptime
    now=${now%.*}${now#*.}
}

# within TENTHS COMMAND..: waits until the command succeeds, for so many tenths of a second; fails then. The last
# try comes after that time, so a machine that stood still for long is tried once more.
within() {
    clock
    latest=$((now + $1 * 10))
    shift
    until "$@"; do
        [ "$now" -lt "$latest" ] || return 1
        clock
        sleep 0.1 &
        wait "$!" 2> /dev/null || true
    done
}

# tenths MS: prints how many tenths of a second these are, or many if it is 0
tenths() {
    echo "$(($1 > 0 ? $1 / 100 : 1000000000))"
}

# is_state DIR STATE: whether state_of prints that. If a signal ends it, the shell says nothing.
is_state() {
    { [ "$(state_of "$1")" = "$2" ]; } 2> /dev/null
}

# has_supervisor DIR
has_supervisor() {
    ! is_state "$1" unsupervised
}

# want_up DIR: makes the supervisor want it up. runsv reads no command during its pause after a crash.
want_up() {
    rm -f "$1/down"
    within 20 has_supervisor "$1" && $raises "$1" && within 15 is_state "$1" 'up wanted'
}

# want_down DIR: makes the supervisor want it down, also one that comes later. While a daemon crashes again
# and again, s6-svc returns before s6-supervise has read the command, and the daemon may start once more. So
# this waits until the supervisor says so. What sends a command and waits may give up before it has sent it, on a
# machine that stands still, so the command is sent first.
want_down() {
    : > "$1/down"
    within 20 has_supervisor "$1" && $lowers "$1" && bring_down "$1" 2000
    within 20 is_state "$1" down
}

# write_script FILE TEXT: makes FILE a script of this text
write_script() {
    printf '#!/bin/sh\n%s\n' "$2" > "$1" && chmod 755 "$1"
}

# seconds MS: prints them
seconds() {
    printf '%d.%03d' "$(($1 / 1000))" "$(($1 % 1000))"
}

# find_grace: sets `grace` to how long a transition may take in the second pass of a shutdown, in milliseconds:
# UNDORC_GRACE, or half its timeout if that is less. Then undorc does not end this script before.
find_grace() {
    grace=$UNDORC_GRACE half=$((${UNDORC_LIMIT:-0} / 2))
    if [ "$half" -gt 0 ] && [ "$half" -lt "$grace" ]; then grace=$half; fi
    [ "$grace" -gt 0 ] || grace=1
}

# force_down DIR MS: brings it down; ends it, its process group and its descendants by KILL if it is not
# down after MS. Not by the supervisor: runsv takes a daemon that has just ended for one that is
# down then, and never runs its finish.
force_down() {
    bring_down "$1" "$2" && return
    echo "down $name: killed" >&2
    kill_family "$(pid_of "$1")"
    bring_down "$1" 2000
}

# stop_family PID..: sends STOP to them and all their descendants, which /proc shows on Linux, and
# prints them. A stopped process starts no other one, so none is missed.
stop_family() {
    for process; do
        [ "${process:-0}" -gt 0 ] || continue
        kill -STOP "$process" 2> /dev/null || true
        echo "$process"
        # Process ids are separated by spaces.
        # shellcheck disable=SC2046
        stop_family $(cat "/proc/$process/task"/*/children 2> /dev/null)
    done
}

# holds_nothing PID..: whether the processes hold no directory
holds_nothing() {
    for process; do [ ! -e "/proc/$process/cwd" ] || return 1; done
}

# kill_family PID..: sends KILL to them, their process groups and all their descendants, and waits, for a
# second at most, until these hold no directory, so that a file system can be unmounted
kill_family() {
    family=$(stop_family "$@")
    # Process ids are separated by newlines.
    # shellcheck disable=SC2086
    for process in $family; do kill -KILL "-$process" || kill -KILL "$process"; done 2> /dev/null || true
    # shellcheck disable=SC2086
    within 10 holds_nothing $family || true
}

# started_at PID: prints the start time of a process in clock ticks since boot
started_at() {
    sed 's/.*) //' "/proc/$1/stat" 2> /dev/null | cut -d ' ' -f 20
}

# boot_id: prints a word for this life of the first process, which differs after a reboot and after
# a restart of the container. Without /proc all are alike.
boot_id() {
    echo "$(cat /proc/sys/kernel/random/boot_id 2> /dev/null)/$(started_at 1)"
}

# is_of_this_boot: whether the file of the session is
is_of_this_boot() {
    recorded=
    [ ! -e "$UNDORC_LIVE.boot" ] || read -r recorded _ < "$UNDORC_LIVE.boot"
    [ "$recorded" = "$(boot_id)" ]
}
