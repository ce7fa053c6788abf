# shellcheck shell=sh
# An undo of an update, and its redo: each longrun starts from the directory that it had under that
# database, those that came leave the supervisor, and those that went come back.
disk n
oneshot net true ''
for name in a b gone; do
    longrun "$name" "echo v1 > /run/v.$name; exec sleep 1000" net
done
longrun old 'exec sleep 1000'
longrun p "trap 'exit 0' TERM
while :; do echo line; sleep 0.05; done"
longrun log 'exec s6-log -b n1 s10000000 /run/logged'
pipe p log
bundle default a b gone old p
start_scanner n
step 'boot' 'raised a b gone log net old p
ok
status 0' 'cp -r services first; undorc compile -o db services; machine/boot'

# runs: what the last starts have run
runs() {
    script 'cat /run/v.a /run/v.b | tr "\n" " "'
}
# under: what the supervisor has
under() {
    script 'machine/says | tr "\n" ,'
}
# files: the sets that are kept, and the longruns of the database in its place
files() {
    script 'undorc db -b db list longruns | tr "\n" " "; cd /run/undorc/services/.sets; echo *'
}
# takes_in: whether the logger goes on to read
takes_in() {
    lines=$(script 'wc -c < /run/logged/current')
    within 10 "[ \$(wc -c < /run/logged/current) -gt $lines ]" && echo yes
}
was=$(daemon old)
script 'cd services
    sed -i s/v1/v2/ a/run b/run
    : > a/dependencies
    rm -r gone
    sed -i -e /gone/d -e s/old/kept/ default/contents
    mv old kept
    mv log logger
    echo logger > p/producer-for
    mkdir new
    cp a/type kept/run new/
    cd ..
    printf "%s\n" "old -> kept" "log -> logger" > renames
    undorc compile -o new services'
step 'update' 'lowered a gone
ok
raised a
ok
status 0' 'machine/manage update -B new -f renames'
is 'what it restarts runs its new run' 'v2 v1 ' "$(runs)"
is 'the supervisor has what is new' 'a up wanted,b up wanted,kept up wanted,logger up wanted,new down,p up wanted,' \
    "$(under)"
step 'undo' 'lowered a
ok
raised a gone
ok
status 0' 'machine/manage undo'
is 'what it restarts runs its old run' 'v1 v1 ' "$(runs)"
is 'the supervisor has what was there, by its old names' \
    'a up wanted,b up wanted,gone up wanted,log up wanted,old up wanted,p up wanted,' "$(under)"
is 'a renamed longrun is the process that it was' "$was" "$(daemon old)"
is 'the old database is in its place' 'a b gone log old p 0 1' "$(files)"
is 'the logger reads' yes "$(takes_in)"
step 'what has not restarted has the directory that it had' 'a: its source has changed since init was called
b: its source has changed since init was called
gone: its source has changed since init was called
log: its source has changed since init was called
old: its source has changed since init was called
p: its source has changed since init was called
status 1' machine/drift
step 'redo' 'lowered a gone
ok
raised a
ok
status 0' 'machine/manage redo'
is 'it runs the new run again' 'v2 v1 ' "$(runs)"
is 'the supervisor has what is new again' \
    'a up wanted,b up wanted,kept up wanted,logger up wanted,new down,p up wanted,' "$(under)"
is 'the logger goes on to read' yes "$(takes_in)"
step 'a renamed longrun restarts' 'lowered kept
ok
raised kept
ok
status 0' 'machine/manage restart kept'
is 'it has its new name alone' kept "$(script 'cd /run/service; ls -d kept old 2> /dev/null')"
was=$(daemon kept)
step 'an undo after it takes the update back' 'raised a gone
status 0' 'machine/manage undo | grep raised'
is 'it has its old name again, and is the process that it was' "$was" "$(daemon old)"
step 'a restart under the old database' 'lowered b
ok
raised b
ok
status 0' 'rm /run/v.b; machine/manage restart b'
is 'it runs the old run' 'v1 v1 ' "$(runs)"

# The name of a longrun is taken back by another update before it restarts.
step 'an update that renames' 'ok
ok
status 0' 'rm -r services; cp -r first services; mv services/old services/once
    sed -i s/old/once/ services/default/contents; echo "old -> once" > renames
    undorc compile -o new services; machine/manage update -B new -f renames'
step 'an update that takes it back' 'ok
ok
status 0' 'rm -r services; cp -r first services; echo "once -> old" > renames
    undorc compile -o new services; machine/manage update -B new -f renames'
is 'it is the process that it was' "$was" "$(daemon old)"
is 'it has its old name alone' 'old up wanted' "$(script 'machine/says | grep -e old -e once')"
step 'undo of both' 'ok
ok
status 0' 'machine/manage undo; machine/manage undo'
is 'it is still that process' "$was" "$(daemon old)"

# An update that restarts a longrun, and alters no database.
# again VERSION: prints the commands that make it
again() {
    echo "sed -i 's/echo v[0-9]*/echo $1/' services/b/run
        undorc compile -o new services; machine/manage update -B new -R b"
}
step 'an update that restarts one' 'lowered b
ok
raised b
ok
status 0' "$(again v3)"
is 'it runs its new run' v3 "$(script 'cat /run/v.b')"
step 'its undo' 'lowered b
ok
raised b
ok
status 0' 'machine/manage undo'
is 'it runs the run before' v1 "$(script 'cat /run/v.b')"
step 'an update whose longrun does not come up' 'lowered b
ok
failed b
ok
status 2' "sed -i '2i exit 1' services/b/run
    undorc compile -o new services; machine/manage update -B new -R b"
step 'the same update takes it back, and carries over' 'raised b
ok
lowered b
ok
raised b
ok
status 0' "sed -i 2d services/b/run
    $(again v4)"
is 'it runs its new run after that' v4 "$(script 'cat /run/v.b')"
for number in 5 6 7 8 9 10 11 12 13; do
    is "update $number" 'lowered b ok raised b ok status 0 ' \
        "$(does "$(again "v$number")" | tr '\n' ' ')$(told | grep -v '^init: ')"
done
is 'the sets of eight databases are kept' '10 3 4 5 6 7 8 9' \
    "$(script 'cd /run/undorc/services/.sets; echo *')"
step 'undo after more than eight updates' 'v12 v11 status 0' \
    'for turn in 1 2; do machine/manage undo > /run/x; cat /run/v.b; done | tr "\n" " "'
is 'v11 runs' v11 "$(script 'cat /run/v.b')"

# An update that is killed in its second half: the next undo takes it back.
script "sed -i 's/echo v[0-9]*/echo v20/' services/b/run
    undorc compile -o new services
    UNDORC_SETTLE=10 machine/manage update -B new -R b > /run/said 2> /run/y & manager=\$!
    timeout 30 sh -c 'until grep -q v20 /run/v.b; do sleep 0.05; done'
    kill -KILL \$manager \$(pgrep -x undorc); wait \$manager; pkill -f machine/controlle[r]" 2> "$room/said"
within 20 '! pgrep -f machine/controlle[r]' || true
step 'undo of an update that was killed' 'raised b
ok
status 0' 'machine/manage undo'
is 'it runs the run before again' v11 "$(script 'cat /run/v.b')"
stop

# The script that makes an update is killed, and its undorc goes on: the next command waits for that.
disk h
longrun b "echo v1 > /run/v.b; trap 'sleep 3; exit 0' TERM; while :; do sleep 0.1; done"
bundle default b
start_scanner h
step 'boot of what is updated' 'raised b
ok
status 0' 'undorc compile -o db services; machine/boot'
script 'sed -i s/v1/v2/ services/b/run; undorc compile -o new services
    machine/manage update -B new -R b & manager=$!
    timeout 30 sh -c "until pgrep -f \"undorc updat[e] -b\"; do sleep 0.02; done"
    kill -KILL $manager; wait $manager' > "$room/said" 2>&1
step 'a command after an update whose script was killed' 'ok
status 0' 'machine/manage change default'
is 'the update was made' v2 "$(script 'cat /run/v.b')"
step 'drift finds nothing behind it' 'status 0' machine/drift
stop
