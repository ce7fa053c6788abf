# shellcheck shell=sh
# Another boot: the session and the copies of the machine before are on its disk.
disk o
longrun d 'exec sleep 1000'
bundle default d
kept='export UNDORC_LIVE=/var/undorc/live UNDORC_PLACE=/var/undorc/services'
start_scanner o
step 'boot' 'raised d
ok
status 0' "$kept; undorc compile -o db services; machine/boot"
step 'boot again, in the same boot' 'ok
status 0' "$kept; machine/boot"
# The directory of a longrun that an update has renamed has its old name.
step 'an update that renames it' 'ok
ok
status 0' "$kept; mv services/d services/e; echo e > services/default/contents
    echo 'd -> e' > renames; undorc compile -o new services
    machine/manage update -B new -f renames"
stop
start_scanner o
step 'a command before boot is refused' 'status 1' "$kept; machine/manage change default"
is 'it says why' 'manage: /var/undorc/live is of an earlier boot: call boot' "$(told)"
# A scanner whose directory was kept, too, starts what it finds there.
script 'ln -s /var/undorc/services/d /run/service/e
    case $UNDORC_SUPERVISOR in s6) s6-svscanctl -a /run/service ;; esac'
is 'an old daemon is there' 1 "$(within 10 'pgrep -f "^sleep 1000"'; script 'pgrep -c -f "^sleep 1000"')"
step 'boot after another boot' 'raised e
ok
status 0' "$kept; machine/boot"
is 'it says what it moved and replaced' \
    'boot: /var/undorc/live is of an earlier boot; it is now /var/undorc/live.before
boot: /var/undorc/services is of an earlier boot, and is replaced' "$(told)"
step 'the longrun is up' 'e up wanted
status 0' "$kept; machine/says"
is 'the old daemon is not' 1 "$(script 'pgrep -c -f "^sleep 1000"')"
is 'only its new name is left' 'e e' \
    "$(script 'echo $(ls /run/service /var/undorc/services | grep -v :)')"
is 'the old session is kept' /var/undorc/live.before "$(script 'ls /var/undorc/live.before')"

# A session keeps its database. One that is compiled over it is named, until a boot at which nothing is up.
step 'a boot on another database while the machine is up' 'ok
status 0' "$kept; cp -r services/e services/f; echo f >> services/default/contents
    undorc compile -o db services; machine/boot"
is 'it says so' 1 "$(script 'grep -c "db is not the database of this session" /run/told')"
step 'a shutdown' 'lowered e
ok
status 0' "$kept; machine/shutdown"
step 'a boot on another database after it' 'raised e f
ok
status 0' "$kept; machine/boot"
is 'it says what it moved and replaced' \
    'boot: /var/undorc/live is of another database; it is now /var/undorc/live.before
boot: /var/undorc/services is of another database, and is replaced' "$(told | grep '^boot: ')"
step 'no undo goes back past it' 'refused NothingToUndo
status 1' "$kept; machine/manage undo"
step 'and nothing is elsewhere' 'status 0' "$kept; machine/manage check"
# So does an update, with directories of its own.
step 'an update to a database that was compiled over it' 'lowered f
ok
raised f
ok
status 0' "$kept; echo e > services/f/dependencies; undorc compile -o db services
    cp db new; machine/manage update -B new"
step 'one undo takes it back' 'lowered f
ok
raised f
ok
status 0' "$kept; machine/manage undo"
is 'with the file of the database' '' "$(script 'undorc db -b db dependencies f')"
step 'and nothing is elsewhere then' 'status 0' "$kept; machine/manage check"
stop
