# shellcheck shell=sh
# The set of 57 services loses thirty commands, which are killed at random times: changes, undos, restarts and
# updates. After each next command the supervisor, what the oneshots have done and the session agree, or
# `status` says that a service is unknown. No two scripts of one service ever run side by side.
disk t
# shellcheck source=fifty.sh
. "$tests/machine/fifty.sh"
# A kill shall find oneshots under way.
for file in */up */down; do
    sed -i '1i foreground { sleep 0.2 }' "$file"
done
cat > ../watch << 'END'
# One script of a service at a time: each leaves its process id and start time, and names an earlier one
# that still runs.
started() { sed 's/.*) //' "/proc/$1/stat" 2> /dev/null | cut -d ' ' -f 20; }
if [ "${1:-}" != state ]; then
    service=$UNDORC_NAME
    for left in /run/watched/"$service",*; do
        other=${left#*,} other=${other%,*}
        [ ! -e "$left" ] || [ "$(started "$other")" != "${left##*,}" ] ||
            echo "$service: $UNDORC_WAY beside $(cat "$left")" >> /run/overlaps
    done
    echo "$UNDORC_WAY" > "/run/watched/$service,$$,$(started $$)"
fi
END
sed -i '2i . /etc/undorc/watch' ../machine/controller ../machine/oneshot
case $supervisor in
    s6) begin=/etc/undorc/machine/first/s6/stage1 ;;
    runit)
        begin=runit
        cp -a "$contrib"/machine/first/runit/* "$disk/upper/etc/runit/"
        ;;
esac
# differ: prints each service that is not what the session says, and not unknown
differ() {
    inside sh -s < "$tests/machine/agree.sh"
    script 'live=" $(machine/manage live | head -n 1) "
        undorc db -b db list oneshots | grep -vx logs | while read -r name; do
            mark=down is=down
            [ ! -e "/run/once/$name" ] || mark=up
            case $live in *" $name "*) is=up ;; esac
            [ "$mark" = "$is" ] || machine/manage status | grep -qx "$name unknown" ||
                echo "$name: $mark, and the session says $is"
        done'
}
# random BELOW: prints a number
random() {
    echo $(($(od -An -N 2 -t u2 /dev/urandom) % $1))
}
# any WORD..: prints one of them
any() {
    shift "$(random $#)"
    echo "$1"
}

start t sh -c "mkdir -p /run/watched; cd /etc/undorc; undorc compile -o db services; exec $begin"
within 60 'grep -q "^boot: status" /run/undorc/boot.log' || true
is 'boot' 'boot: status 0' "$(script 'tail -n 1 /run/undorc/boot.log')"
is 'all agree' '' "$(differ)"
round=0
while [ "$round" -lt 30 ]; do
    round=$((round + 1))
    one=$(any net fsck utmp route udevd dbus nginx postgres php-fpm crond slow swap logs archive)
    command=$(any 'change default' "change -d $one" "change -d $one" undo redo "restart $one" update)
    case $command in
        update)
            script "echo '# $round' >> services/crond/run
                printf '%s\\n' utmp $(any fsck swap net) > services/smartd/dependencies
                undorc compile -o new services"
            command="update -B new -R $one"
            ;;
    esac
    script "machine/manage $command > /run/said 2>&1 & sleep 0.$(random 10)$(random 10); sleep $(random 2)
        kill -KILL \$(pgrep -x undorc -P \$!) \$!; wait \$!
        machine/manage change > /run/x 2> /run/told" 2> "$room/said" || true
    is "kill $round, of $command: all agree" '' "$(differ)"
done
is 'the watch has seen the scripts' yes "$(script '[ "$(ls /run/watched | wc -l)" -gt 60 ] && echo yes')"
is 'no two scripts of one service ran side by side' '' "$(script 'cat /run/overlaps 2> /dev/null')"
script 'export UNDORC_NAME=two UNDORC_WAY=up; sh -c ". ./watch; sleep 60" &
    timeout 20 sh -c "until grep -qs up /run/watched/two,*; do sleep 0.1; done"; UNDORC_WAY=down sh -c ". ./watch"'
is 'two of one would be seen' 'two: down beside up' "$(script 'cat /run/overlaps')"
is 'all is up again' 'status 0' "$(does 'machine/manage change default > /run/x')"
is 'all agree with that' '' "$(differ)"
ask_end halt
end_within 90
is 'the end' 130 "$status"
