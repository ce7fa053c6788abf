# shellcheck shell=sh
# The first processes: boot, and halt, poweroff and reboot, with a daemon that ignores TERM. The
# status of a machine that reboots is 129, and of one that halts or powers off 130.
disk i
oneshot mnt 'mount -t tmpfs x /mnt/x' 'umount /mnt/x'
longrun d 'echo hello; exec sleep 1000' mnt
longrun deaf "trap '' TERM; while :; do sleep 1; done"
longrun loud 'while :; do echo works; sleep 0.5; done'
longrun log 'exec s6-log n1 s100000 /run/logged'
pipe loud log
echo mnt > deaf/dependencies
timeout_of 4000 deaf
bundle default d deaf loud
case $supervisor in
    s6)
        ways='USR1:130 USR2:130 PWR:130 TERM:129 INT:129'
        begin=/etc/undorc/machine/first/s6/stage1
        ;;
    runit)
        ways='0:130 6:129 INT:129'
        begin=runit
        cp -a "$contrib"/machine/first/runit/* "$disk/upper/etc/runit/"
        ;;
esac

# ask WAY: a number is what runit-init is called with, and anything else a signal
ask() {
    case $1 in
        [06]) ask_runit "$1" ;;
        *) kill "-$1" "$first" ;;
    esac
}

for way in $ways; do
    start i sh -c "cd /etc/undorc; undorc compile -o db services; exec $begin"
    within 30 'grep -q "^boot: status" /run/undorc/boot.log' || true
    is "$way: boot" 'boot: status 0' "$(script 'tail -n 1 /run/undorc/boot.log')"
    within 10 'cd /run/undorc/caught
        grep -q "boot: status 0" current && grep -q hello current &&
        grep -q works /run/logged/current' || true
    is "$way: what nobody logs is caught, and how the boot ended" '1 1 0 ' \
        "$(script 'cd /run/undorc/caught
            for line in hello "boot: status 0" works; do
                printf "%s " $(grep -c "$line" current)
            done')"
    is "$way: the supervisor agrees with the session" '' \
        "$(inside sh -s < "$tests/machine/agree.sh")"
    ask "${way%:*}"
    read_shutdown
    wait_end
    is "$way: the end" "${way#*:}" "$status"
    # On a busy machine a second pass is made again.
    is "$way: the shutdown" \
        'shutdown: by force now: deaf mnt,down deaf: killed,shutdown: status 2,' \
        "$(grep -x -e 'shutdown: .*' -e 'down deaf: killed' <&7 | awk '!told[$0]++' | tr '\n' ,)"
    exec 7<&-
done
if [ "$supervisor" = s6 ]; then
    start i /etc/undorc/machine/first/s6/crash
    wait_end
    is 'a scanner that can not go on: the machine reboots' 129 "$status"
fi
