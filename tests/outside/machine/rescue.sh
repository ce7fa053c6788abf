# shellcheck shell=sh
# A boot that fails: the log and the console have a line for each failure, and the bundle `rescue` comes
# up. Another boot of a machine that runs forgets nothing.
disk b
longrun d 'exec sleep 1000'
oneshot bad 'exit 3' ''
longrun above 'exec sleep 1000' bad
longrun shell 'exec sleep 1000'
bundle default d above
bundle rescue shell
case $supervisor in
    s6) begin=/etc/undorc/machine/first/s6/stage1 ;;
    runit)
        begin=runit
        cp -a "$contrib"/machine/first/runit/* "$disk/upper/etc/runit/"
        ;;
esac
# What is written to the console of this machine goes to the file /run/console.
start b sh -c "mount -t proc proc /proc; mkdir /dev/pts; mount -t devpts -o ptmxmode=666 devpts /dev/pts
    ln -s pts/ptmx /dev/ptmx; script -qfc 'exec sleep 1000' /run/console < /dev/null > /run/x 2>&1 &
    until [ -c /dev/pts/0 ]; do sleep 0.1; done
    : > /dev/console; mount --bind /dev/pts/0 /dev/console
    cd /etc/undorc; undorc compile -o db services; exec $begin"
within 30 'grep -q "^boot: status" /run/undorc/boot.log' || true
is 'the boot fails' 'boot: status 2' "$(script 'tail -n 1 /run/undorc/boot.log')"
is 'it has a line for each failure' 'boot: bad: failed
boot: above: blocked
boot: brings up rescue
boot: status 2' "$(script 'grep ^boot: /run/undorc/boot.log')"
within 10 'grep -q "boot: status 2" /run/undorc/caught/current' || true
is 'so has the log that catches all' 4 "$(script 'grep -c "boot: " /run/undorc/caught/current')"
within 10 '[ "$(grep -c "^boot: " /run/console)" -eq 4 ]' || true
is 'so has the console' 4 "$(script 'grep -c "^boot: " /run/console')"
is 'rescue is up' 'live d shell' "$(script 'machine/manage live | head -n 1')"
is 'the supervisor agrees with the session' '' "$(inside sh -s < "$tests/machine/agree.sh")"
is 'no undo goes back past it' 'refused NothingToUndo
status 1' "$(does 'machine/manage undo')"

step 'the machine is repaired' 'raised above bad
ok
status 0' 'echo true > services/bad/up; undorc compile -o new services
    machine/manage update -B new > /run/x && machine/manage change above'
step 'another boot' 'ok
status 0' 'machine/boot'
step 'it forgets nothing' 'lowered above bad
ok
status 0' 'machine/manage undo'
stop
