# shellcheck shell=sh
# What the service directories of s6-rc say holds under both supervisors: the signal to go down by, the
# time after which a daemon is killed, readiness by s6-notifyoncheck. A longrun that ends before it is
# ready fails at once.
disk z
longrun int "trap 'echo INT > /run/int; exit 0' INT; trap 'echo TERM > /run/int; exit 0' TERM
while :; do sleep 0.1; done"
echo SIGINT > int/down-signal
longrun deaf "trap '' TERM; while :; do sleep 0.1; done"
echo 1000 > deaf/timeout-kill
longrun asked 'exec s6-notifyoncheck -s 100 -w 200 -n 200 sleep 1000'
mkdir asked/data
printf '#!/bin/sh\ntest -e /run/ready\n' > asked/data/check
chmod +x asked/data/check
longrun tidy 'exec sleep 1000'
printf '#!/bin/sh\nsleep 1; echo tidied > /run/tidied\n' > tidy/finish
chmod +x tidy/finish
longrun ends 'exit 7'
longrun lame ''
echo '#!/nowhere' > lame/run
echo 3 | tee asked/notification-fd ends/notification-fd > lame/notification-fd
start_scanner z
step 'init' 'status 0' 'undorc compile -o db services; machine/init'
step 'readiness by s6-notifyoncheck' 'raised asked
ok
ready
status 0' '(sleep 2; echo ready > /run/ready) & machine/manage change asked && cat /run/ready'
step 'a longrun that is on its way is no difference' 'status 0' '
    machine/manage change -d asked > /run/x; rm /run/ready
    machine/manage change asked > /run/x 2>&1 &
    timeout 20 sh -c "until machine/says | grep -q \"^asked up\"; do sleep 0.1; done"
    machine/drift; ended=$?; : > /run/ready; wait; (exit $ended)'
# took TEXT: runs it, and prints whether it took clearly less than its timeout of 30 s
took() {
    script "begun=\$(date +%s); $1 > /run/x 2> /run/told
        [ \$((\$(date +%s) - begun)) -lt 25 ] && echo soon"
}
script 'machine/manage change int deaf > /run/x 2>&1'
is 'a daemon is killed after its timeout-kill' soon "$(took 'machine/manage change -d deaf')"
is 'it is down' 'deaf down' "$(script 'machine/says | grep deaf')"
step 'the signal of down-signal is sent' 'lowered int
ok
status 0' 'machine/manage change -d int'
is 'it is that signal' INT "$(script 'cat /run/int')"
step 'a longrun is down once its finish has ended' 'tidied
status 0' 'machine/manage change tidy > /run/x; machine/manage change -d tidy > /run/x; cat /run/tidied'
is 'a longrun that ends before it is ready fails at once' soon "$(took 'machine/manage change ends lame')"
is 'its status is told' 'failed ends lame up ends: failed 7' \
    "$(script 'echo $(grep failed /run/x) $(grep -o "up ends: failed 7" /run/told)')"
is 'a missing interpreter is named, with the source' \
    'up lame: /etc/undorc/services/lame/run: no interpreter /nowhere' "$(told | grep lame)"
is 'compile -v names it' 'undorc: /etc/undorc/services/lame/run: no interpreter "/nowhere"' \
    "$(script 'machine/manage compile -v -o /run/db 2>&1')"
is 'lint names it' '/etc/undorc/services/lame/run: no interpreter' \
    "$(script 'machine/manage lint 2> /run/x | grep lame/run')"
stop
