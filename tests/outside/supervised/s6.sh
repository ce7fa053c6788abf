# shellcheck shell=sh
# What supervised.sh asks of s6.

# there: whether it is installed
there() {
    command -v s6-svscan > /dev/null && command -v s6-svc > /dev/null && command -v s6-svstat > /dev/null
}

# scans: begins the supervisor of the folder `scan`
scans() {
    s6-svscan scan &
    scanner=$!
}

# unscans: ends it, and what it has brought up
unscans() {
    kill -TERM "$scanner" 2> /dev/null || true
}

# state NAME: what it says
state() {
    case $(s6-svstat -o up,wantedup "scan/$1" 2> /dev/null) in
        'true true') echo up ;;
        'true false') echo 'up, and to go down' ;;
        'false true') echo 'down, and to come up' ;;
        'false false') echo down ;;
        *) echo unsupervised ;;
    esac
}

# number NAME: that of its process
number() {
    s6-svstat -o pid "scan/$1"
}

# by_hand up|down NAME: somebody moves a longrun behind the session's back
by_hand() {
    case $1 in
        up) s6-svc -wu -T 5000 -u "scan/$2" ;;
        down) s6-svc -wd -T 5000 -d "scan/$2" ;;
    esac
}

# ready_after NAME SECONDS: a longrun that is ready after so long
ready_after() {
    longrun "$1" "sleep $2; echo >&3; exec 3>&-; exec sleep 1000"
    echo 3 > "services/$1/notification-fd"
}

# never_ready NAME: one that is to announce it, and never does
never_ready() {
    longrun "$1" 'exec sleep 1000'
    echo 3 > "services/$1/notification-fd"
}

# logs NAME FIFO: a longrun that writes what comes through a fifo into the folder logged
logs() {
    longrun "$1" "exec 0<> $2; exec s6-log -b t n1 s1000000 $room/logged"
}
