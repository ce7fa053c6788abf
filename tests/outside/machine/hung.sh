# shellcheck shell=sh
# A boot that hangs: in a script, in one that ignores TERM, and in a daemon that never gets ready. A
# machine that is asked to halt then, and a container that gets TERM, goes down in order.
disk h
oneshot mnt 'mount -t tmpfs x /mnt/x' 'umount /mnt/x'
longrun d 'cd /mnt/x; exec sleep 1000' mnt
oneshot stuck 'sleep 3000' ''
oneshot deaf "trap '' TERM; while :; do sleep 1; done" ''
case $supervisor in
    s6)
        longrun never 'exec sleep 1000'
        echo 3 > never/notification-fd
        begin=/etc/undorc/machine/first/s6/stage1
        ;;
    runit)
        longrun never 'exec sleep 1000'
        printf '#!/bin/sh\nexit 1\n' > never/check
        chmod +x never/check
        begin=runit
        cp -a "$contrib"/machine/first/runit/* "$disk/upper/etc/runit/"
        ;;
esac
longrun above 'exec sleep 1000' stuck
bundle default d above never deaf

# hangs: waits until what can come up is up, and the rest is on its way
hangs() {
    within 60 'undorc status -b db -l /run/undorc/live > /run/x || exit
        for line in "d up" "stuck rising" "never rising" "deaf rising"; do
            grep -qx "$line" /run/x || exit
        done' && sleep 1
}
for kind in '' container; do
    log=/run/undorc/ending/log ended=130
    if [ -n "$kind" ]; then
        begin="env UNDORC_SUPERVISOR=$supervisor machine/first/container > /run/said 2>&1"
        log=/run/said ended=0
    fi
    what=${kind:-machine}
    start h sh -c "mountpoint -q /proc || mount -t proc proc /proc
        cd /etc/undorc; undorc compile -o db services; exec $begin"
    is "$what: the boot hangs" yes "$(hangs && echo yes)"
    is "$what: drift finds nothing while it hangs" 'status 0' "$(does machine/drift)"
    begun=$(date +%s)
    ask_end halt
    if [ -n "$kind" ]; then exec 7< "/proc/$first/root$log"; else read_shutdown; fi
    end_within 90
    is "$what: the end" "$ended" "$status"
    is "$what: it ends within 55 s" yes "$([ $(($(date +%s) - begun)) -gt 55 ] || echo yes)"
    # If the boot goes on to its next command, that is called off, too.
    is "$what: the shutdown brings down what is up" 'lowered d mnt,shutdown: calls off,' \
        "$(sed -n -e 's/\(shutdown: calls off\) process .*/\1/p' -e '/^lowered /p' \
            -e '/shutdown.* status [1-9]/p' <&7 | sort -u | tr '\n' ,)"
    exec 7<&-
done
