# shellcheck shell=sh
# The scripts of oneshots get the same environment, directory, umask and limit of files at boot, by
# hand and by cron.
disk n
oneshot sees 'mkdir -p /run/seen
file=/run/seen/$(cat /run/who 2> /dev/null || echo boot)
env | grep -v -e ^_= -e ^PWD= -e ^OLDPWD= | sort > $file
echo "$(ulimit -n) $(umask) $(pwd)" >> $file' true
bundle default sees
case $supervisor in
    s6) begin=/etc/undorc/machine/first/s6/stage1 ;;
    runit)
        begin=runit
        cp -a "$contrib"/machine/first/runit/* "$disk/upper/etc/runit/"
        ;;
esac
start n sh -c "cd /etc/undorc; undorc compile -o db services; exec $begin"
within 30 'grep -q "^boot: status" /run/undorc/boot.log' || true
is 'boot' 'boot: status 0' "$(script 'tail -n 1 /run/undorc/boot.log')"

# calls WHO VARIABLE=VALUE..: brings the oneshot down and up as this one would
calls() {
    who=$1
    shift
    script "echo $who > /run/who; cd /tmp; umask 077; ulimit -S -n 77
        env -i $* /etc/undorc/machine/manage change -d sees
        env -i $* /etc/undorc/machine/manage change sees" > "$room/said" 2>&1
}
calls hand "PATH=$path" HOME=/home/joe SECRET=x LD_LIBRARY_PATH=/home/joe/lib
calls cron PATH=/usr/bin:/bin SHELL=/bin/sh LOGNAME=root
for who in hand cron; do
    is "by $who it is as at boot" same \
        "$(script "diff /run/seen/boot /run/seen/$who && echo same")"
done
is 'nothing of the caller is there' 0 "$(script 'grep -c -e SECRET -e joe -e LOGNAME /run/seen/hand')"
is 'its limit, umask and directory' '1024 0022 /' "$(script 'tail -n 1 /run/seen/hand')"
calls one "PATH=$path" UNDORC_PASS=SPEED SPEED="'by two'" OTHER=x
is 'a variable that is passed on' "SPEED=by two" "$(script 'grep -e SPEED= -e OTHER= /run/seen/one')"
script 'echo "UNDORC_PASS=TZ; TZ=UTC" > settings'
calls site "PATH=$path"
is 'a variable that the settings of the site pass on' TZ=UTC "$(script 'grep TZ= /run/seen/site')"
stop
