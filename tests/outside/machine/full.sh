# shellcheck shell=sh
# A machine whose /run is full, or has no more inodes, goes down in order.
disk x
oneshot mnt 'mount -t tmpfs x /mnt/x' 'umount /mnt/x'
longrun d 'cd /mnt/x; exec sleep 1000' mnt
longrun above 'exec sleep 1000' d
bundle default above
case $supervisor in
    s6) begin=/etc/undorc/machine/first/s6/stage1 ;;
    runit)
        begin=runit
        cp -a "$contrib"/machine/first/runit/* "$disk/upper/etc/runit/"
        ;;
esac

# fill WHAT: fills /run
fill() {
    case $1 in
        room) script 'mount -o remount,size=8m /run; dd if=/dev/zero of=/run/fill bs=4096' ;;
        inodes)
            script 'used=$(df --output=iused /run | tail -n 1 | tr -d " ")
                mount -o remount,nr_inodes=$used /run'
            ;;
    esac 2> "$room/said" || true
}
full='(: > /run/more) 2> /dev/null && echo 1 > /run/more 2> /dev/null || echo full'

for what in room inodes; do
    start x sh -c "cd /etc/undorc; undorc compile -o db services; exec $begin"
    within 30 'grep -q "^boot: status" /run/undorc/boot.log' || true
    is "no $what: boot" 'boot: status 0' "$(script 'tail -n 1 /run/undorc/boot.log')"
    fill "$what"
    is "no $what: /run is full" full "$(script "$full")"
    ask_end halt
    read_shutdown
    end_within 60
    is "no $what: the end" 130 "$status"
    is "no $what: the shutdown" 'lowered above d mnt,shutdown: status 0,' \
        "$(grep -x -e 'lowered .*' -e 'shutdown: .*' <&7 | tr '\n' ,)"
    exec 7<&-
done

# A shutdown by hand, where the session has no file system of its own.
for what in room inodes; do
    start_scanner x
    step "no $what: boot by hand" 'raised above d mnt
ok
status 0' machine/boot
    fill "$what"
    is "no $what: /run is full again" full "$(script "$full")"
    is "no $what: a shutdown by hand" 'lowered above d mnt
ok
status 0 live' "$(script 'machine/shutdown 2> /tmp/told; echo "status $?" $(machine/manage live | head -n 1)')"
    stop
done
