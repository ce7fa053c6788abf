# shellcheck shell=sh
# Functions that ask runit. s6.sh has the same ones. DIR is a service directory, by its link in the
# directory of runsvdir.
# shellcheck source=processes.sh
. "$here/processes.sh"

# One of its tools, and the commands that want a daemon up or down and send it HUP
tool=runsv raises='sv up' lowers='sv down' hangs_up='sv hup'

# rescan: runsvdir looks for new service directories every five seconds, and can't be asked; fails if its
# directory is not there
rescan() {
    [ -d "$UNDORC_SCAN" ]
}

# state_of DIR: prints `up` or `down`, followed by `wanted` where the supervisor wants it up; or
# `unsupervised`
state_of() {
    state=$(sv status "$1" 2> /dev/null) || state=
    # The state of a logger stands at the end.
    state=${state%%; *: log: *}
    case $state in
        # A finish that runs may still write the status of its run.
        run:*', want down'* | finish:*', want down'*) echo 'up' ;;
        run:*) echo 'up wanted' ;;
        down:*', want up'* | finish:*) echo 'down wanted' ;;
        down:*) echo 'down' ;;
        *) echo 'unsupervised' ;;
    esac
}

# pid_of DIR: prints the process id of the daemon
pid_of() {
    cat "$1/supervise/pid"
}

# remove_supervisor NAME: ends the supervisor of its copy, to which it sets `copy`, and removes the link in the
# directory of runsvdir
remove_supervisor() {
    copy=$(readlink "$UNDORC_SCAN/$1") || return 0
    rm -f "$UNDORC_SCAN/$1"
    sv exit "$copy" > /dev/null 2>&1
    within 150 is_state "$copy" unsupervised
}

# has_ended DIR: whether the daemon that was started is gone; sets `end` to its status. wrapped-finish
# writes that, which may begin late on a busy machine.
has_ended() {
    end=
    [ -e "$1/ended" ] || [ "$(pid_of "$1")" != "$started" ] || return 1
    ! within 20 test -s "$1/ended" || read -r end < "$1/ended"
}

# is_ready DIR: whether its check succeeds, which may take as long as this script
is_ready() {
    attend timeout -k 1 "$(($(tenths "$bound") / 10 + 1))" ./check > /dev/null 2>&1
}

# has_started DIR: whether there is a process
has_started() {
    [ -s "$1/supervise/pid" ] || [ -e "$1/ended" ]
}

# bring_up DIR MS: `sv` itself would wait by a clock that jumps
bring_up() {
    rm -f "$1/down" "$1/ended"
    sv up "$1" || give_up 'runsv is gone' 1
    within 50 has_started "$1" || give_up 'not started' 1
    started=$(pid_of "$1")
    if [ -x "$1/check" ]; then
        cd "$1" && rise "$2"
    else
        attend sleep "$UNDORC_SETTLE"
        if has_ended "$1"; then give_up_ended; fi
    fi
}

# bring_down DIR MS: it is killed after its timeout-kill, which runit does not know
bring_down() {
    : > "$1/down"
    sv down "$1" > /dev/null || return
    fatal=0
    [ ! -e "$1/timeout-kill" ] || read -r fatal < "$1/timeout-kill" || true
    case $fatal in '' | *[!0-9]*) fatal=0 ;; esac
    if [ "$fatal" -gt 0 ] && { [ "$2" -eq 0 ] || [ "$fatal" -lt "$2" ]; }; then
        within "$(tenths "$fatal")" is_state "$1" down && return
        kill -KILL "$(pid_of "$1")" 2> /dev/null
    fi
    within "$(tenths "$2")" is_state "$1" down
}
