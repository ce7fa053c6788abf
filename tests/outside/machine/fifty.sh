# shellcheck shell=sh
# A set of 57 services as s6-rc takes it: oneshots and longruns in execline, pipelines, readiness, a daemon that
# crashes, one that ignores TERM, and a slow one. In the working directory.

# runs NAME TEXT [NEED..]: a longrun in execline
runs() {
    longrun "$@"
    printf '#!/bin/execlineb -P\n%s\n' "$2" > "$1/run"
}
# logged NAME TEXT [NEED..]: a longrun in execline and its logger, which says when it is ready
logged() {
    runs "$@"
    runs "$1-log" "s6-log -b -d 3 n3 s100000 /run/log/$1" logs
    echo 3 > "$1-log/notification-fd"
    pipe "$1" "$1-log"
    echo "$1-pipeline" > "$1-log/pipeline-name"
}
# once NAME [NEED..]: a oneshot that leaves a directory
once() {
    name=$1
    shift
    oneshot "$name" "foreground { mkdir -p /run/once } mkdir -p /run/once/$name" \
        "rm -rf /run/once/$name" "$@"
}
says_ready='foreground { fdmove 1 3 echo } fdclose 3 sleep 100000'
chats='loopwhilex if { echo works } sleep 0.5'

once root
: > root/flag-essential
oneshot logs 'mkdir -p /run/log' '' root
for name in hostname lo sysctl modules swap seed utmp; do once "$name" root; done
once fsck modules
once cleanup fsck
once net lo modules hostname
once route net
for name in udevd klogd syslogd; do logged "$name" "$chats" fsck; done
for name in dbus ntpd sshd nginx redis; do logged "$name" "$chats" net; done
for name in postgres php-fpm; do
    logged "$name" "foreground { echo works } $says_ready" route
    echo 3 > "$name/notification-fd"
done
for name in getty-1 getty-2 getty-3 getty-4 crond acpid smartd; do
    runs "$name" 'sleep 100000' utmp
done
echo postgres >> nginx/dependencies
runs collector "$chats" net
runs forwarder 's6-log -b 1'
runs archive 's6-log -b -d 3 n3 s100000 /run/log/archive' logs
echo 3 > archive/notification-fd
pipe collector forwarder
pipe forwarder archive
echo collecting > archive/pipeline-name
runs flaky 'exit 1' net
longrun legacy "trap '' TERM; while :; do sleep 0.2; done" net
timeout_of 5000 legacy
longrun slow "trap 'sleep 2; exit 0' TERM; while :; do sleep 0.2; done" net
bundle basic root hostname lo sysctl modules swap seed utmp fsck cleanup net route
bundle default basic udevd-pipeline klogd-pipeline syslogd-pipeline dbus-pipeline ntpd-pipeline \
    sshd-pipeline nginx-pipeline redis-pipeline postgres-pipeline php-fpm-pipeline getty-1 \
    getty-2 getty-3 getty-4 crond acpid smartd collecting legacy slow
sed -i 's|/bin/sh -ec|execlineb -Pc|' ../machine/settings
