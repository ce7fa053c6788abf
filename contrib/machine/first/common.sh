# shellcheck shell=sh
# What the first processes of a machine share. Set before: `first`, the directory of the script below
# this one, or `here`.
export PATH=/usr/local/sbin:/usr/local/bin:/usr/sbin:/usr/bin:/sbin:/bin
umask 022
: "${here:=$(realpath "$first/../..")}"

console=/dev/null
if [ -c /dev/console ] && (: > /dev/console) 2> /dev/null; then console=/dev/console; fi

# mount_kernel: mounts the file systems that everything needs, where they are missing
mount_kernel() {
    mountpoint -q /proc || mount -t proc proc /proc
    mountpoint -q /sys || mount -t sysfs sysfs /sys
    mountpoint -q /dev || mount -t devtmpfs dev /dev
    mountpoint -q /run || mount -t tmpfs -o mode=755,nosuid,nodev tmpfs /run
    # A file system of its own keeps its room and its inodes where others fill /run.
    mkdir -p /run/undorc
    mountpoint -q /run/undorc || mount -t tmpfs -o mode=755,nosuid,nodev undorc /run/undorc
    # The end of the machine takes this directory. The end of an earlier boot is not one of this.
    rm -rf /run/undorc/ending /run/undorc/reserved /run/undorc/settings
    mkdir /run/undorc/reserved
    : > /run/undorc/reserved/log
    : > /run/undorc/reserved/reboot
}

# begins s6|runit: reads the settings of a machine with this supervisor. Its other scripts find that in
# /run/undorc/settings.
begins() {
    if [ -d /run/undorc ] && [ ! -e /run/undorc/settings ]; then
        echo "UNDORC_SUPERVISOR=$1" > /run/undorc/settings
    fi
    unset UNDORC_SUPERVISOR
    UNDORC_SUPERVISOR=$1
    # shellcheck source=../settings
    . "$here/settings"
}

# becomes COMMAND..: becomes the scanner
becomes() {
    forget_settings
    exec "$@" 0< /dev/null 1<> /run/undorc/caught-fifo 2>&1
}

# catch_all LOGGER: puts a logger of all that no longrun logs under the supervisor. It reads a fifo
# and writes its own messages to the console.
catch_all() {
    service=$UNDORC_SCAN/undorc-caught
    mkdir -p "$service" /run/undorc/caught
    [ -p /run/undorc/caught-fifo ] || mkfifo -m 600 /run/undorc/caught-fifo
    printf '#!/bin/sh\nexec %s 0<> /run/undorc/caught-fifo 2> %s\n' "$1" "$console" > "$service/run"
    chmod 755 "$service/run"
}

# boot_beside: boots once the scanner is there. What boot prints is in /run/undorc/boot.log; its
# status, and a line for each failure, also go to the catch-all logger and to the console.
boot_beside() {
    status=0
    "$here/boot" > /run/undorc/boot.log 2>&1 || status=$?
    echo "boot: status $status" >> /run/undorc/boot.log
    # Opening the fifo for reading as well waits for nobody.
    grep '^boot: ' /run/undorc/boot.log | tee "$console" 1<> /run/undorc/caught-fifo
}

# begin_end halt|poweroff|reboot: says how the machine ends; fails if another end has begun. It needs
# neither room nor inodes: it renames what was reserved.
begin_end() {
    if ! mv /run/undorc/reserved /run/undorc/ending 2> /dev/null; then
        [ ! -d /run/undorc/ending ] || return 1
        mkdir -p /run/undorc/ending && : > /run/undorc/ending/reboot
    fi
    [ "$1" = reboot ] || mv /run/undorc/ending/reboot "/run/undorc/ending/$1" || true
}

# lower_all: brings all services down. What the shutdown prints is in /run/undorc/ending/log, or on the
# console where that file can't be made.
lower_all() {
    log=/run/undorc/ending/log
    (: >> "$log") 2> /dev/null || log=$console
    status=0
    "$here/shutdown" > "$log" 2>&1 || status=$?
    echo "shutdown: status $status" | tee -a "$log"
}

# kill_all: ends all processes but this one and the first
kill_all() {
    kill -TERM -1 2> /dev/null
    # `sleep` starts after TERM was sent.
    sleep 2
    kill -KILL -1 2> /dev/null
}

# unmount_all: unmounts what can be, and makes the root read-only. `umount -r` and `remount` change
# a file system for all that have it mounted: try this only in a machine of its own.
unmount_all() {
    sync
    umount -a -r -t noproc,nosysfs,nodevtmpfs,notmpfs 2> /dev/null
    mount -o remount,ro / 2> /dev/null
    sync
}
