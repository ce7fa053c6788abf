# shellcheck shell=sh
# An update that renames longruns: no daemon restarts, no line of a pipeline is lost, and the old names are
# free at once.
disk r
longrun low 'exec sleep 1000'
longrun a 'exec sleep 1000' low
longrun spare 'exec sleep 1000'
longrun top 'exec sleep 1000' a
longrun p1 "trap 'exit 0' TERM
read -r n < /run/n.p1 || n=0
while :; do n=\$((n + 1)); echo p1 \$n; echo \$n > /run/n.p1; sleep 0.02; done"
longrun log 'exec s6-log -b n1 s10000000 /run/logged'
pipe p1 log
bundle default top p1 log
cp "$tests/machine/lost.sh" "$disk/upper/etc/undorc/lost"
start_scanner r
step 'boot' 'raised a log low p1 top
ok
status 0' 'undorc compile -o db services; machine/boot'

# pids NAME..: the process ids of these daemons
pids() {
    for name; do daemon "$name"; done
}
# directories: the names under the supervisor, and the directories
directories() {
    script 'cd /run/service; echo *; cd /run/undorc/services; echo *'
}
pids a log low p1 top > "$room/before"
script 'cd services
    mv a alpha; sed -i "s/^a\$/alpha/" top/dependencies
    mv log logger; echo logger > p1/producer-for; sed -i "s/^log\$/logger/" default/contents
    mv spare free
    printf "%s\\n" "a -> alpha" "log -> logger" "spare -> free" > ../renames
    cd ..; undorc compile -o new services'
step 'an update that renames longruns moves nothing' 'ok
ok
status 0' 'machine/manage update -B new -f renames'
pids alpha logger low p1 top > "$room/after"
is 'all daemons are the processes that they were' '' "$(diff "$room/before" "$room/after")"
is 'the supervisor has the new names alone, and the directories that there were' \
    'alpha free logger low p1 top undorc-pipes
a log low p1 spare top' "$(directories)"
is 'only what differs by more than its name is named as old' \
    'init: p1: has its old copy until it starts again
init: top: has its old copy until it starts again' "$(told | grep '^init: ')"
step 'drift names both' 'p1: has its old copy until it starts again
top: has its old copy until it starts again
status 1' machine/drift
step 'what is live has its new names' 'live alpha logger low p1 top
status 0' 'machine/manage live | head -n 1'

# another NAME PID: prints a script: whether its daemon is another process than this one
another() {
    echo "pid=\$($(daemon_text "$1")); [ \"\${pid:-0}\" -gt 0 ] && [ \"\$pid\" != $2 ]"
}
# A crash and the death of a supervisor, whose directory has another name than its longrun.
case $supervisor in s6) supervised='s6-supervise' ;; runit) supervised='runsv' ;; esac
was=$(daemon alpha)
script "kill -KILL $was"
is 'a daemon that crashes comes up again' yes \
    "$(within 10 "$(another alpha "$was")" && echo yes)"
was=$(daemon alpha)
is 'its supervisor is killed' yes "$(script "kill -KILL \$(pgrep -f '^$supervised a\$') && echo yes")"
is 'the scanner starts another one' yes "$(within 15 \
    "$(another alpha "$was")" && echo yes)"
script "kill -KILL $was"
step 'the session is right behind it' 'p1: has its old copy until it starts again
top: has its old copy until it starts again
status 1' machine/drift

# Each end of the pipeline starts anew, under its own name.
step 'the producer restarts' 'lowered p1
ok
raised p1
ok
status 0' 'machine/manage restart p1'
logged=$(script 'wc -l < /run/logged/current')
is 'what it writes still arrives' yes \
    "$(within 10 "[ \$(wc -l < /run/logged/current) -gt $logged ]" && echo yes)"
step 'the consumer restarts' 'lowered logger p1
ok
raised logger p1
ok
status 0' 'machine/manage restart logger'
step 'so does a renamed longrun' 'lowered alpha top
ok
raised alpha top
ok
status 0' 'machine/manage restart alpha'
is 'their directories are the same' 'alpha free logger low p1 top undorc-pipes
a log low p1 spare top' "$(directories)"
is 'each fifo has one name' 'logger' "$(script 'ls /run/undorc/services/.set/.pipes')"
step 'drift finds nothing' 'status 0' machine/drift
step 'the producer goes down' 'lowered p1
ok
status 0' 'machine/manage change -d p1'
within 20 'sh lost p1 | grep -q whole' || true
is 'no line is lost' 'p1 whole' "$(script 'machine/manage change -d logger > /run/x 2>&1; sh lost p1')"
step 'all is up again' 'raised logger p1
ok
status 0' 'machine/manage change default'

# What can't be renamed is refused before anything moves.
step 'two longruns can not exchange their names' 'there
status 1' 'cp -r services other; cd other; mv low x; mv alpha low; mv x alpha
    echo alpha > low/dependencies; rm -f alpha/dependencies; echo low > top/dependencies
    mv top crown; sed -i "s/^top\$/crown/" default/contents; cd ..
    printf "%s\\n" "top -> crown" "alpha -> low" "low -> alpha" > renames; undorc compile -o new other
    machine/manage update -B new -f renames; ended=$?; ls new > /run/x && echo there; (exit $ended)'
is 'it says so' "manage: alpha can't become low, since the new database has another longrun alpha" "$(told)"
is 'no other one has its new name' 'alpha free logger low p1 top undorc-pipes
a log low p1 spare top' "$(directories)"
step 'an update by a file that is refused' 'there
status 1' 'echo "nobody -> beta" > renames
    machine/manage update -B new -f renames; ended=$?; ls new > /run/x && echo there; (exit $ended)'
is 'it makes no directory' 'alpha free logger low p1 top undorc-pipes
a log low p1 spare top' "$(directories)"

# A name that is free again, while its directory is not.
step 'a longrun is renamed' 'ok
ok
status 0' 'mv services/low services/base; echo base > services/alpha/dependencies
    echo "low -> base" > renames
    undorc compile -o new services; machine/manage update -B new -f renames'
was=$(daemon base)
step 'another one gets its old name at once' 'ok
ok
raised low
ok
status 0' 'cp -r services/free services/low; undorc compile -o new services
    machine/manage update -B new && machine/manage change low'
is 'both have their directories' 'alpha base free logger low p1 top undorc-pipes
a log low low. p1 spare top' "$(directories)"
is 'the first one is the process that it was' "$was" "$(daemon base)"
step 'a restart of the first one' 'lowered alpha base top
ok
raised alpha base top
ok
status 0' 'machine/manage restart base'
is 'the other one is up' 'base up wanted
low up wanted' "$(script 'machine/says base low')"
step 'a renamed longrun that is removed' 'lowered free
ok
ok
status 0' 'machine/manage change free > /run/x
    mv services/free services/loose; echo "free -> loose" > renames
    undorc compile -o new services; machine/manage update -B new -f renames > /run/x
    rm -r services/loose; undorc compile -o new services
    machine/manage update -B new | sed "s/ loose/ free/"'
is 'nothing of it is left' 'alpha base logger low p1 top undorc-pipes
a log low low. p1 top' "$(directories)"
step 'a shutdown' 'lowered alpha base logger low p1 top
ok
status 0' machine/shutdown
stop
