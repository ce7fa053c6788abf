# shellcheck shell=sh
# A wall clock that jumps while longruns are waited for: none of them fails. The clock that jumps is
# that of the supervisor's tools.
disk y
longrun slow 'sleep 4; echo ready > /run/ready; echo >&3; exec 3>&-; exec sleep 1000'
case $supervisor in
    s6)
        echo 3 > slow/notification-fd
        tools='s6-svc s6-svwait s6-svstat'
        ;;
    runit)
        printf '#!/bin/sh\ntest -e /run/ready\n' > slow/check
        chmod +x slow/check
        sed -i 's/echo >&3; exec 3>&-; //' slow/run
        tools=sv
        ;;
esac
longrun lazy "trap 'sleep 3; exit 0' TERM; while :; do sleep 0.2; done"
local=$disk/upper/usr/local
is 'the shifted clock is made' '' \
    "$("${CC:-cc}" -shared -fPIC -o "$local/bin/shift.so" "$tests/../lib/shift.c" -ldl 2>&1)"
for tool in $tools; do
    printf '#!/bin/sh\nLD_PRELOAD=/usr/local/bin/shift.so SHIFT_FILE=/run/shift exec %s "$@"\n' \
        "$(command -v "$tool")" > "$local/bin/$tool"
    chmod +x "$local/bin/$tool"
done
start_scanner y
step 'init' 'status 0' 'undorc compile -o db services; machine/init'
for seconds in 36000 -36000; do
    step "a jump by $seconds on the way up" 'raised lazy slow
ok
status 0' "rm -f /run/shift /run/ready; (sleep 1.5; echo $seconds > /run/shift) &
        machine/manage change slow lazy"
    step "a jump by $seconds on the way down" 'lowered lazy
ok
status 0' "rm -f /run/shift; (sleep 1.5; echo $seconds > /run/shift) & machine/manage change -d lazy"
    script 'rm -f /run/shift; machine/manage change -d slow > /run/x 2>&1'
done
stop
