# shellcheck shell=sh
# What supervised.sh asks of runit.

# there: whether it is installed
there() {
    command -v runsvdir > /dev/null && command -v runsv > /dev/null && command -v sv > /dev/null
}

# scans: begins the supervisor of the folder `scan`
scans() {
    runsvdir "$room/scan" &
    scanner=$!
}

# unscans: ends it, and what it has brought up
unscans() {
    kill -HUP "$scanner" 2> /dev/null || true
}

# state NAME: what it says
state() {
    case $(sv status "$room/scan/$1" 2> /dev/null) in
        run:*', want down'*) echo 'up, and to go down' ;;
        run:*) echo up ;;
        down:*', want up'* | finish:*', want up'*) echo 'down, and to come up' ;;
        down:*) echo down ;;
        finish:*) echo 'about to be down' ;;
        *) echo unsupervised ;;
    esac
}

# number NAME: that of its process
number() {
    cat "scan/$1/supervise/pid"
}

# by_hand up|down NAME: somebody moves a longrun behind the session's back
by_hand() {
    sv -w 5 "$1" "$room/scan/$2" > by_hand
}

# checked NAME CHECK: a longrun with this check
checked() {
    longrun "$1" "$2"
    printf '#!/bin/sh\n%s\n' "$3" > "services/$1/check"
    chmod +x "services/$1/check"
}

# ready_after NAME SECONDS: a longrun that is ready after so long. The file of an earlier life has
# another process id.
ready_after() {
    checked "$1" "sleep $2; echo \$\$ > ready; exec sleep 1000" 'cmp -s ready supervise/pid'
}

# never_ready NAME: one that never says that it is
never_ready() {
    checked "$1" 'exec sleep 1000' 'exit 1'
}

# logs NAME FIFO: a longrun that writes what comes through a fifo into the folder logged
logs() {
    longrun "$1" "exec 0<> $2; exec svlogd -tt $room/logged"
}
