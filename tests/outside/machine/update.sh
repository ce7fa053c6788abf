# shellcheck shell=sh
# An update: changed sources are copied and used from the next start on, new longruns come, old ones
# go, and an update that was killed is finished by the next one.
disk u
oneshot net 'touch /run/net' 'rm -f /run/net'
for name in a b gone below; do
    longrun "$name" "echo v1 > /run/v.$name; exec sleep 1000" net
done
longrun needy 'exec sleep 1000' a
bundle default a b gone needy
# An entry may be a link.
mv b ../kept
ln -s ../kept b
start_scanner u
step 'boot' 'raised a b gone needy net
ok
status 0' 'undorc compile -o db services; machine/boot'
step 'drift finds nothing' 'status 0' machine/drift
script 'cd services
    sed -i s/v1/v2/ a/run b/run
    : > a/dependencies
    rm -r gone
    sed -i /gone/d default/contents
    mkdir new
    cp a/type a/run new/
    sed -i s/v2/new/ new/run'
step 'drift names changed sources' 'a: its source has changed since init was called
b: its source has changed since init was called
gone: its source has changed since init was called
status 1' machine/drift
step 'update -n moves nothing and renames nothing' 'lower a gone needy
ok
raise a needy
ok
there
status 0' 'undorc compile -o new services; machine/manage update -B new -n
    test -e new && echo there'
step 'so it does where options are written in one word' 'lower a gone needy
ok
raise a needy
ok
there
status 0' 'machine/manage update -qnBnew; test -e new && echo there'
step 'update' 'lowered a gone needy
ok
raised a needy
ok
status 0' 'machine/manage update -B new'
is 'it names the longrun that keeps its old copy' \
    'init: b: has its old copy until it starts again' "$(told | grep '^init: b')"
is 'what it restarts runs its new run' v2 "$(script 'cat /run/v.a')"
is 'what it leaves alone runs its old one' v1 "$(script 'cat /run/v.b')"
is 'NEW has taken the place of the database' a,b,below,needy,new, \
    "$(script 'test -e new || undorc db -b db list longruns | tr "\n" ,')"
is 'the supervisor has the new longrun' 'new down' "$(script 'machine/says | grep ^new')"
is 'nothing is left of the old one' '' \
    "$(script 'ls -d /run/service/gone /run/undorc/services/gone 2> /dev/null')"
step 'drift names the old copy' 'b: has its old copy until it starts again
status 1' machine/drift
step 'a restart' 'lowered b
ok
raised b
ok
status 0' 'machine/manage change -d b && machine/manage undo'
is 'the restarted longrun runs its new run' v2 "$(script 'cat /run/v.b')"
step 'drift finds nothing again' 'status 0' machine/drift

# A crash starts the copy that is there, and a change the one that is staged.
script "sed -i s/v2/v3/ services/b/run; machine/init; rm /run/v.b
    kill -KILL $(daemon b)" 2> "$room/said"
within 10 'grep -q v /run/v.b'
is 'a crash starts the old copy' v2 "$(script 'cat /run/v.b')"
step 'a change starts the new one' 'v3
status 0' 'machine/manage change -d b > /run/x; machine/manage change b > /run/x; cat /run/v.b'

# A logger of the supervisor's own comes and goes with the next start.
step 'a logger that is new' 'lowered b
ok
raised b
ok
status 0' 'mkdir services/b/log; printf "#!/bin/sh\nexec s6-log n1 /run/b\n" > services/b/log/run
    chmod +x services/b/log/run; sed -i "2i echo works" services/b/run; machine/init
    machine/manage change -d b && machine/manage undo'
within 10 'grep -q works /run/b/current'
is 'it logs' works "$(script 'cat /run/b/current')"
step 'a logger that is gone' 'lowered b
ok
raised b
ok
status 0' 'rm -r services/b/log; machine/init; machine/manage change -d b && machine/manage undo'
is 'nothing of it is left' no "$(script 'ls -d /run/service/b/log 2> /dev/null || echo no')"

# An update that was killed behind undorc, and before it renamed NEW.
step 'an update after one that was killed' 'ok
ok
status 0' 'rm -r services/below
    undorc compile -o new services
    undorc update -b db -B new -l /run/undorc/live -c machine/controller > /run/x
    machine/manage update -Bnew | grep -v ^refused; test ! -e new'
is 'it finishes the first one' a,b,needy,new, \
    "$(script 'undorc db -b db list longruns | tr "\n" ,')"
stop

# An update is called off: what is under way ends, nothing more begins, and nothing is left running.
disk v
oneshot net true ''
longrun low 'echo started > /run/low; exec sleep 1000'
longrun slow "trap 'while [ -e /run/hold ]; do sleep 0.1; done; exit 0' TERM; while :; do sleep 0.1; done" low
bundle default slow net
start_scanner v
step 'boot of what is updated' 'raised low net slow
ok
status 0' 'undorc compile -o db services; machine/boot'

# needs NAME..: the sources of another database, in which low needs these
needs() {
    script "printf '%s\\n' $* | grep . > services/low/dependencies
        undorc compile -o new services; rm -f /run/low"
}
# called_off SIGNAL TEXT: prints a script: an update is sent SIGNAL once TEXT succeeds. If there is a file
# /run/hold, slow is on its way down until then.
called_off() {
    echo "env --default-signal=INT UNDORC_SETTLE=4 machine/manage update -B new > /run/said 2> /run/x &
        manager=\$!
        timeout 20 sh -c 'until $2; do sleep 0.05; done'
        kill -$1 \$manager
        sleep 1
        rm -f /run/hold
        ended=0
        wait \$manager || ended=\$?
        cat /run/said
        pgrep -x undorc
        pgrep -f 'machine/controlle[r] '
        ls new 2> /dev/null
        (exit \$ended)"
}
for signal in TERM INT HUP; do
    needs net
    step "$signal calls an update off in its first half, which renames nothing" 'lowered slow
untried low
ok
new
status 2' ": > /run/hold; $(called_off "$signal" 'machine/says | grep -q "^slow up$"')"
    step "an undo after $signal brings back what went down" 'raised slow
ok
status 0' 'machine/manage undo'
    step "the same update after $signal" 'lowered low slow
ok
raised low slow
ok
status 0' 'machine/manage update -B new'
    needs ''
    step "$signal calls an update off in its second half, which renames NEW" 'lowered low slow
ok
raised low
untried slow
ok
status 2' "$(called_off "$signal" 'test -e /run/low')"
    step "a change after $signal" 'raised slow
ok
status 0' 'machine/manage change default'
done

# An update is killed in its second half, while a longrun that it renames is on its way up. The
# session is one of NEW then.
script 'mv services/slow services/slower; sed -i s/slow/slower/ services/default/contents
    echo "slow -> slower restart" > renames; undorc compile -o new services
    UNDORC_SETTLE=10 machine/manage update -B new -f renames > /run/said 2> /run/y & manager=$!
    timeout 90 sh -c "until UNDORC_DB=/etc/undorc/new machine/says | grep -q \"^slower up\" &&
        test ! -L /run/undorc/services/slower; do sleep 0.05; done"
    kill -KILL $manager $(pgrep -x undorc); wait $manager' 2> "$room/said"
is 'a shutdown after it goes by NEW' 'lowered low net slower
ok
status 0' "$(does machine/shutdown)"
is 'it brings down what was on its way, too' 'low down
slower down' "$(script 'UNDORC_DB=/etc/undorc/new machine/says')"
is 'it says so' 'shutdown: an update to /etc/undorc/new was cut short' "$(told | grep ^shutdown:)"
stop

# An update that can't lower everything.
disk w
oneshot net true 'exit 1'
longrun deaf 'trap : TERM; while :; do sleep 0.1; done' net
longrun a 'exec sleep 1000' net
echo 1000 > deaf/timeout-down
bundle default deaf a
start_scanner w
step 'boot with a daemon that ignores TERM' 'raised a deaf net
ok
status 0' 'undorc compile -o db services; machine/boot'
step 'an update that can not lower it renames nothing' '1 there
status 2' ': > services/deaf/dependencies
    undorc compile -o new services
    machine/manage update -B new > /run/x; ended=$?
    echo $(grep -cx ok /run/x) $(test -e new && echo there); (exit $ended)'
is 'the time-out is told, and no shell tells of what it ended' '1 0' \
    "$(script 'echo $(grep -c "down deaf: timed out" /run/told) $(grep -c Terminated /run/told)')"
stop
