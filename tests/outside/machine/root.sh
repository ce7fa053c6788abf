#!/bin/sh
# root.sh DISK COMMAND..: the first process of a machine: makes the overlay its root, leaves the
# file systems of the host, and becomes COMMAND.
set -eu
disk=$1
shift
mount --make-rprivate /
mount -t overlay overlay \
    -o "lowerdir=/,upperdir=$disk/upper,workdir=$disk/work" "$disk/on"
cd "$disk/on"
mkdir -p old proc sys dev run tmp
mount -t tmpfs run run
mount -t tmpfs tmp tmp
# The host's /dev is one file system for all, which no machine may make read-only.
mount -t tmpfs -o mode=755 dev dev
for device in 'null 1 3' 'zero 1 5' 'full 1 7' 'random 1 8' 'urandom 1 9' 'tty 5 0'; do
    # Name and numbers are separated by spaces.
    # shellcheck disable=SC2086
    set -- $device "$@"
    mknod -m 666 "dev/$1" c "$2" "$3"
    shift 3
done
ln -s /proc/self/fd dev/fd
pivot_root . old
cd /
# `umount` needs /proc; the first process mounts its own. A test that looks in may hold this one.
mount -t proc proc proc
umount -l /old
umount -l /proc
rmdir old
exec "$@"
