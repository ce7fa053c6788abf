# shellcheck shell=sh
# A tree as images of s6-overlay have it, in a container: with-contenv, `base`, `user` and `user2`, a
# service that sets the status and ends the container, and a daemon that ignores TERM.
disk g
keep=$disk/upper/var/keep
mkdir -p "$disk/upper/command" "$disk/upper/etc/s6-overlay/s6-rc.d" "$disk/upper/etc/base"
ln -s /etc/undorc/machine/carried/with-contenv "$disk/upper/command/with-contenv"
cd "$disk/upper/etc/base"
oneshot mounts true ''
bundle base mounts
cd ../s6-overlay/s6-rc.d
# member BUNDLE NAME..: as these images have it
member() {
    mkdir -p "$1/contents.d"
    echo bundle > "$1/type"
    inside_of=$1
    shift
    for name; do : > "$inside_of/contents.d/$name"; done
}
# below NAME NEED..
below() {
    mkdir -p "$1/dependencies.d"
    above=$1
    shift
    for name; do : > "$above/dependencies.d/$name"; done
}
# with_env FILE TEXT: a script with the environment of the container
with_env() {
    printf '#!/command/with-contenv sh\n%s\n' "$2" > "$1"
    chmod +x "$1"
}
oneshot init-env /etc/s6-overlay/s6-rc.d/init-env/run ''
with_env init-env/run 'echo "$GREETING" > /var/keep/greeting'
below init-env base
longrun svc-deaf "trap '' TERM; while :; do sleep 1; done"
below svc-deaf init-env
longrun svc-web ''
with_env svc-web/run 'trap "echo ended > /var/keep/web; exit 0" TERM
echo "$GREETING" > /var/keep/web; while :; do sleep 0.1; done'
below svc-web init-env
member user init-env svc-deaf svc-web
member user2 svc-main
longrun svc-main 'until [ -e /run/over ]; do sleep 0.1; done; exit 9'
longrun svc-halts 'until [ -e /run/over ]; do sleep 0.1; done; exit 5'
longrun svc-bad 'exit 1'
printf '#!/bin/sh
echo 42 > /run/s6-linux-init-container-results/exitcode
/run/s6/basedir/bin/halt\n' > svc-halts/finish
chmod +x svc-halts/finish

greeting='two  words
and a line'
# contain WORD..: a container of these services; `more` is one more variable of it
more=MORE=
contain() {
    rm -f "$keep"/*
    start g env -i PATH="$path" UNDORC_SUPERVISOR="$supervisor" GREETING="$greeting" "$more" \
        UNDORC_SOURCE='/etc/base /etc/s6-overlay/s6-rc.d' sh -c 'mount -t proc proc /proc
        cd /etc/undorc
        undorc compile -o db /etc/base /etc/s6-overlay/s6-rc.d
        exec machine/first/container "$@" > /var/keep/out 2> /var/keep/err' sh "$@"
    within 30 'grep -qs -e "^raised" /var/keep/err' || true
    sleep 1
}
# ends_by_term: sends TERM, and notes how many seconds the end takes
ends_by_term() {
    begun=$(date +%s)
    kill -TERM "$first"
    end_within 60
    took=$(($(date +%s) - begun))
}
# A host that takes long for a container whose daemons hear TERM has that much more time.
contain -n user2
ends_by_term
slow=$((took > 2 ? took : 0))
contain -n base -n user -n user2
is 'all of it comes up' 'live init-env mounts svc-deaf svc-main svc-web' \
    "$(script 'machine/manage live | head -n 1')"
is 'a oneshot with the environment of the container' "$greeting" "$(cat "$keep/greeting")"
is 'a longrun with it' "$greeting" "$(cat "$keep/web")"
is 'lint knows that the up of a oneshot names its script' '' \
    "$(script 'UNDORC_SOURCE="/etc/base /etc/s6-overlay/s6-rc.d" machine/manage lint 2> /run/x | grep init-env')"
ends_by_term
is 'TERM ends the container' 0 "$status"
# A host that stood still meanwhile is asked twice more.
for turn in 1 2; do
    [ "$took" -gt $((10 + slow)) ] || break
    contain -n base -n user -n user2
    ends_by_term
done
is "it ends within 10 s ($took s)" yes "$([ "$took" -gt $((10 + slow)) ] || echo yes)"
is 'the daemon that hears TERM has ended by it' ended "$(cat "$keep/web")"
is 'the one that does not was killed' 1 "$(grep -c '^down svc-deaf: killed$' "$keep/err")"
is 'no shell tells of what it has ended' 0 "$(grep -c Terminated "$keep/err")"
contain -n svc-halts
script ': > /run/over'
end_within 30
is 'a service sets the status and ends the container' 42 "$status"
contain -n svc-halts sleep 1000
script ': > /run/over'
end_within 30
is 'so it does beside a command' 42 "$status"
contain -n user2 -e svc-main
script ': > /run/over'
end_within 30
is 'the container ends when its main daemon does, with its status' 9 "$status"

# Variables of these images.
more=S6_BEHAVIOUR_IF_STAGE2_FAILS=1
contain -n base -n svc-bad sh -c 'echo ran > /var/keep/ran'
end_within 30
is 'a command runs behind a boot that failed in part' '0 ran' "$status $(cat "$keep/ran")"
more=S6_KILL_GRACETIME=4000
contain -n base sh -c '(trap "sleep 1; echo late > /var/keep/late; exit" TERM; while :; do sleep 0.1; done) &
    sleep 1'
end_within 30
is 'what is left at the end has this time after TERM' late "$(cat "$keep/late")"
