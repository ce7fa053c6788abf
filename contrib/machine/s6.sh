# shellcheck shell=sh
# Functions that ask s6. runit.sh has the same ones. DIR is a service directory, by its link in the
# scan directory.
# shellcheck source=processes.sh
. "$here/processes.sh"

# One of its tools, and the commands that want a daemon up or down and send it HUP
tool=s6-svscanctl raises='s6-svc -U' lowers='s6-svc -D' hangs_up='s6-svc -h'

# rescan: makes the scanner look for new service directories; fails if there is none
rescan() {
    s6-svscanctl -a "$UNDORC_SCAN"
}

# state_of DIR: prints `up` or `down`, followed by `wanted` where the supervisor wants it up; or
# `unsupervised`
state_of() {
    case $(s6-svstat -o up,wantedup "$1" 2> /dev/null) in
        'true true') echo 'up wanted' ;;
        'true false') echo 'up' ;;
        'false true') echo 'down wanted' ;;
        'false false') echo 'down' ;;
        *) echo 'unsupervised' ;;
    esac
}

# pid_of DIR: prints the process id of the daemon
pid_of() {
    s6-svstat -o pid "$1"
}

# remove_supervisor NAME: ends the supervisor of its copy, to which it sets `copy`, and removes the link in the
# scan directory. A scanner that was killed has left supervisors that the next one does not end.
remove_supervisor() {
    copy=$(readlink "$UNDORC_SCAN/$1") || return 0
    s6-svunlink -t 10000 "$UNDORC_SCAN" "$1" || true
    s6-svc -dx "$copy" 2> /dev/null || true
    within 100 is_state "$copy" unsupervised
}

# is_ready DIR: whether the daemon becomes ready within 0.3 s
is_ready() {
    attend s6-svwait -U -t 300 "$1" 2> /dev/null
}

# has_ended DIR: whether the daemon that was started is gone; sets `end` to its status, also where another one has
# started since. If only its supervisor is gone, the last end is the one of `before`.
has_ended() {
    end=
    [ "$(s6-svstat -o up,pid "$1")" != "true $started" ] || return 1
    last=$(s6-svdt -s -n 1 "$1")
    [ "$last" != "${before-}" ] || return 0
    end=${last##* }
    case $last in *signal*) end=$((128 + end)) ;; esac
}

# bring_up DIR MS: s6-svc returns once the daemon has started, also where it has ended again
bring_up() {
    before=$(s6-svdt -s -n 1 "$1")
    attend s6-svc -wu -T "$2" -U "$1" || give_up 'not started' 1
    started=$(pid_of "$1")
    if [ -e "$1/notification-fd" ]; then
        rise "$2"
    else
        attend timeout "$UNDORC_SETTLE" s6-svwait -d "$1"
        if has_ended "$1"; then give_up_ended; fi
    fi
}

# bring_down DIR MS
bring_down() {
    attend s6-svc -wD -T "$2" -D "$1"
}
