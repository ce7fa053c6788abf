#!/bin/sh
# tests/bench/boots.sh [PROGRAM [ROUNDS]]: seconds by the clock to bring a machine of 57 services up and
# down: by `manage change default` and `shutdown` of contrib/machine, by `make -j`, and by OpenRC with
# rc_parallel. All call the same scripts of oneshots and the same controller, under s6, on one machine in
# namespaces of its own, one after the other; each time is the least and the most of ROUNDS (3). The rows
# `boot` are the first process of contrib/machine, from its start to the end of its boot, and from the
# signal to halt to the end of its shutdown.
#
# It needs root, s6, make and OpenRC. `sleep 0.5` stands for the work of a oneshot; a daemon that announces
# no readiness counts as up after a second. So the longest chain of the set takes 6 s up: six oneshots and
# three daemons. Down it is six times `sleep 0.1`.
set -eu
here=$(realpath "$(dirname "$0")")
program=$(realpath "${1:-$here/../../crates/undorc/out/undorc}")
rounds=${2:-3}
if [ -z "${UNDORC_ROOM:-}" ]; then
    UNDORC_ROOM=$(mktemp -d)
    export UNDORC_ROOM
    trap 'rmdir "$UNDORC_ROOM"' EXIT
    unshare --mount --pid --fork --kill-child --mount-proc sh "$0" "$program" "$rounds"
    exit
fi
room=$UNDORC_ROOM
supervisor=s6
tests=$here/../outside
# disk copies it.
# shellcheck disable=SC2034
contrib=$here/../../contrib
mount -t tmpfs room "$room"
# shellcheck source=../outside/machine/library.sh
. "$tests/machine/library.sh"
# shellcheck source=../outside/machine/services.sh
. "$tests/machine/services.sh"

# works NAME [NEED..]: a oneshot
works() {
    name=$1
    shift
    oneshot "$name" "sleep 0.5; : > /run/marks/$name" "sleep 0.1; rm -f /run/marks/$name" "$@"
}
# runs NAME [NEED..]: a daemon
runs() {
    name=$1
    shift
    longrun "$name" 'exec sleep 100000' "$@"
}
# logged NAME [NEED..]: a daemon and its logger
logged() {
    runs "$@"
    longrun "$1-log" "exec s6-log -b -d 3 n3 s100000 /run/log-$1" root
    echo 3 > "$1-log/notification-fd"
    pipe "$1" "$1-log"
    echo "$1-log" >> "$1/dependencies"
}

# services: makes the set in the working directory
services() {
    oneshot root 'mkdir -p /run/marks; sleep 0.5; : > /run/marks/root' 'sleep 0.1; rm -f /run/marks/root'
    for name in hostname lo sysctl modules swap seed utmp keymap locale users; do works "$name" root; done
    works fsck modules
    for name in mounts tmpfiles rules cleanup; do works "$name" fsck; done
    works net mounts lo hostname
    for name in route firewall; do works "$name" net; done
    works clock route
    for name in udevd klogd syslogd auditd; do logged "$name" fsck; done
    for name in dbus ntpd sshd redis; do logged "$name" net; done
    logged postgres route
    logged php postgres
    logged nginx php
    for name in getty-1 getty-2 getty-3 getty-4 getty-5 getty-6; do runs "$name" utmp; done
    for name in crond acpid smartd; do runs "$name" cleanup; done
    for name in exporter agent mailer backup queue proxy; do runs "$name" net; done
    # Names of services are separated by blanks.
    # shellcheck disable=SC2046
    bundle default $(ls)
}

# text WAY NAME: the commands that bring a service up or down
text() {
    if [ -e "$2/run" ]; then
        echo "UNDORC_LIMIT=30000 exec /etc/undorc/machine/controller $1 $2"
    else
        cat "$2/$1"
    fi
}
# needs NAME: its direct dependencies
needs() {
    tr '\n' ' ' < "$1/dependencies"
}
# by_make: prints the set as the targets up and down of a file for make
by_make() {
    for way in up down; do
        # Names are separated by newlines.
        # shellcheck disable=SC2086
        echo "$way: $(printf "%s.$way " $names)"
    done
    for name in $names; do
        for need in $(needs "$name"); do
            echo "$name.up: $need.up"
            echo "$need.down: $name.down"
        done
        for way in up down; do printf '%s.%s:\n\t@%s\n' "$name" "$way" "$(text "$way" "$name")"; done
    done
}
# by_openrc: a script of OpenRC for each service, in its runlevel default
by_openrc() {
    etc=$disk/upper/etc/undorc/openrc
    mkdir -p "$etc/init.d" "$etc/runlevels/default" "$etc/runlevels/off"
    for name in $names; do
        {
            printf '#!/sbin/openrc-run\ndepend() {\n    need %s\n}\n' "$(needs "$name")"
            printf 'start() {\n    (%s)\n}\n' "$(text up "$name")"
            printf 'stop() {\n    (%s)\n}\n' "$(text down "$name")"
        } > "$etc/init.d/$name"
        chmod +x "$etc/init.d/$name"
        ln -s "/etc/init.d/$name" "$etc/runlevels/default/$name"
    done
    echo 'rc_parallel=YES' > "$etc/rc.conf"
}

# hundredths: prints the time of a clock that does not jump
hundredths() {
    read -r now _ < /proc/uptime
    echo "${now%.*}${now#*.}"
}
# note WHAT WAY BEGUN: adds the time since then to what was measured
note() {
    echo "$1;$2;$(($(hundredths) - $3))" >> "$room/times"
}
# ups: prints how many oneshots and daemons are up, by what they have done
ups() {
    script 'ls /run/marks | wc -l
        for one in /run/service/*; do s6-svstat -o up "$one"; done | grep -c true' | tr '\n' ' '
}
# takes WHAT WAY UPS TEXT: measures TEXT on the machine, and looks what is up behind it
takes() {
    begun=$(hundredths)
    script "$4" > "$room/said" 2>&1 || tail -n 5 "$room/said" >&2
    note "$1" "$2" "$begun"
    [ "$(ups)" = "$3" ] || echo "boots: $1 $2 leaves up: $(ups)" >&2
}
# both WHAT UP DOWN: measures both. The holder of the fifos is always up.
both() {
    takes "$1" up '20 38 ' "$2"
    takes "$1" down '0 1 ' "$3"
}
# boots: measures a first process
boots() {
    begun=$(hundredths)
    start b /etc/undorc/machine/first/s6/stage1
    within 60 'grep -q "^boot: status 0" /run/undorc/boot.log' || echo 'boots: the boot failed' >&2
    note 'boot, 8 workers' up "$begun"
    begun=$(hundredths)
    kill -USR1 "$first"
    within 60 'grep -q "^shutdown: status 0" /run/undorc/ending/log' || true
    note 'boot, 8 workers' down "$begun"
    wait_end
}

disk b
services
cd "$disk/upper/etc/undorc/services"
names=$(find . -name run -o -name up | cut -d / -f 2 | sort)
by_make > ../Makefile
by_openrc
start_scanner b
script 'undorc compile -o db services && machine/init
    rm -rf /etc/init.d /etc/runlevels && cp -a openrc/* /etc
    mkdir -p /run/openrc && touch /run/openrc/softlevel'
for _ in $(seq "$rounds"); do
    for workers in 8 32; do
        both "undorc, $workers workers" "UNDORC_WORKERS=$workers machine/manage change default" \
            "UNDORC_WORKERS=$workers machine/shutdown"
    done
    for jobs in 8 64; do both "\`make -j $jobs\`" "make -s -j $jobs up" "make -s -j $jobs down"; done
    both 'OpenRC, parallel' 'openrc default' 'openrc off'
done
stop
for _ in $(seq "$rounds"); do boots; done
if grep -q __asan "$program"; then
    echo 'The program was compiled with nothing proved and with checks of its memory, so each of its calls takes'
    echo 'several times as long as one of a proved program.'
    echo
fi
printf '| %s | %s | %s |\n' '' 'Up, s' 'Down, s' --- --- ---
awk -F ';' '
    !($1 in seen) { seen[$1]; names[++count] = $1 }
    {
        at = $1 ";" $2
        if (!(at in least) || $3 < least[at]) least[at] = $3
        if ($3 > most[at]) most[at] = $3
    }
    function range(at) { return sprintf("%.2f to %.2f", least[at] / 100, most[at] / 100) }
    END {
        for (i = 1; i <= count; i++)
            printf "| %s | %s | %s |\n", names[i], range(names[i] ";up"), range(names[i] ";down")
    }' "$room/times"
