# shellcheck shell=sh
# The settings of a site: what is edited after the boot holds for the next command, for what a daemon
# or cron starts, and for the shutdown.
disk e
longrun d 'exec sleep 1000'
bundle default d
case $supervisor in
    s6) begin=/etc/undorc/machine/first/s6/stage1 ;;
    runit)
        begin=runit
        cp -a "$contrib"/machine/first/runit/* "$disk/upper/etc/runit/"
        ;;
esac
start e env -i PATH="$path" sh -c "cd /etc/undorc; undorc compile -o db services; exec $begin"
within 30 'grep -q "^boot: status" /run/undorc/boot.log' || true
is 'boot' 'boot: status 0' "$(script 'tail -n 1 /run/undorc/boot.log')"
is 'a daemon has none of the settings in its environment' 0 \
    "$(script "tr '\\0' '\\n' < /proc/$(daemon d)/environ | grep -c ^UNDORC_")"

# below TEXT: runs it with the environment of a daemon
below() {
    script "tr '\\0' '\\n' < /proc/$(daemon d)/environ > /run/environ
        env -i \$(cat /run/environ) sh -c '$1'; echo \"status \$?\""
}
is 'a command that a daemon starts finds the supervisor and the session' 'd up wanted
live d
status 0' "$(below 'cd /etc/undorc; machine/says && machine/manage live | head -n 1')"
script 'mv db db2; echo UNDORC_DB=/etc/undorc/db2 > settings'
is 'a command that a daemon starts goes by edited settings' 'live d
status 0' "$(below '/etc/undorc/machine/manage live | head -n 1')"
is 'so does one by hand' 'live d
status 0' "$(does 'machine/manage live | head -n 1')"
script 'cp -r services others; mkdir others/x; echo oneshot > others/x/type; echo true > others/x/up
    undorc compile -o db3 others'
is 'a variable of the environment takes precedence' 1 \
    "$(does 'UNDORC_DB=/etc/undorc/db3 machine/manage live 2>&1' \
        | grep -c '^undorc: /etc/undorc/db3 is not the database of this session: ')"
ask_end halt
read_shutdown
end_within 60
is 'the end' 130 "$status"
is 'the shutdown goes by edited settings' 'lowered d,shutdown: status 0,' \
    "$(grep -x -e 'lowered .*' -e 'shutdown: .*' <&7 | tr '\n' ,)"
exec 7<&-
