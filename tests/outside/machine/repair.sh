# shellcheck shell=sh
# `check` names a daemon that crashes, one that its supervisor has given up, one that was stopped by hand, one that
# was started by hand, and a oneshot that is not up; `check -r` mends each.
disk r
longrun base 'exec sleep 1000'
longrun crashes 'test ! -e /run/broken || exit 1; exec sleep 1000' base
longrun gone 'test ! -e /run/broken || exit 1; exec sleep 1000' base
printf '#!/bin/sh\n[ ! -e /run/broken ] || exit 125\n' > gone/finish
chmod +x gone/finish
longrun stopped 'exec sleep 1000' base
longrun above 'exec sleep 1000' stopped
longrun stray 'exec sleep 1000'
oneshot asked 'touch /run/asked' 'rm -f /run/asked'
printf '#!/bin/sh\n[ -e /run/asked ] || exit 3\n' > asked/check
chmod +x asked/check
oneshot silent true true
bundle default base crashes gone stopped above asked silent
start_scanner r
does 'undorc compile -o db services' > "$room/said"
step 'boot' 'raised above asked base crashes gone silent stopped
ok
status 0' machine/boot
step 'nothing is elsewhere' 'status 0' 'machine/manage check'
step 'and nothing moves' 'status 0' 'machine/manage check -r'

# by_hand up|down NAME: as an administrator would
by_hand() {
    case $supervisor.$1 in
        s6.up) script "s6-svc -wu -u /run/service/$2" ;;
        s6.down) script "s6-svc -wd -d /run/service/$2" ;;
        runit.*) script "sv -w 20 $1 /run/service/$2 > /run/x" ;;
    esac
}
by_hand down stopped
is 'stopped by hand' 'stopped live, but down
status 3' "$(does 'machine/manage check')"
step 'it is mended, with what needs it' 'stopped live, but down
lowered above stopped
ok
raised above stopped
ok
status 0' 'machine/manage check -r'

by_hand up stray
is 'started by hand' 'stray not live, but up
status 3' "$(does 'machine/manage check')"
step 'it is brought down' 'stray not live, but up
lowered stray
ok
status 0' 'machine/manage check stray -r'

# The daemons end, and can't start again: the supervisor tries one again and again, and gives the other up.
script 'touch /run/broken'
for name in crashes gone; do script "kill -KILL $(daemon "$name")"; done
is 'one crashes, and one is given up' 'gone live, but down
status 3' "$(within 20 'undorc check gone -c machine/controller -b db -l /run/undorc/live | grep -q down'
    does 'machine/manage check gone base')"
is 'what crashes is not known, or just up' '' "$(script 'machine/manage check crashes' |
    grep -vx -e 'crashes live, but unknown' -e 'crashes live, but down')"
script 'rm /run/broken'
is 'what was given up is mended' 'gone live, but down
lowered gone
ok
raised gone
ok
status 0' "$(within 20 'machine/manage check crashes'; does 'machine/manage check -r')"
step 'all is where it was' 'status 0' 'machine/manage check'

# A oneshot says by its check where it is. One without a check is not known, and no line is printed.
script 'rm /run/asked'
is 'a oneshot that is not up' 'asked live, but down
status 3' "$(does 'machine/manage check')"
step 'it is brought up again' 'asked live, but down
lowered asked
ok
raised asked
ok
status 0' 'machine/manage check -r asked silent'
is 'its script has run' yes "$(script 'test -e /run/asked && echo yes')"
