# shellcheck shell=sh
# `manage apply`: compiles the sources, prints what an update to them moves, and makes it; with -s it
# also raises what is new in what was booted.
disk a
longrun d 'exec sleep 1000'
longrun e 'exec sleep 1000'
bundle default d e
start_scanner a
step 'boot' 'raised d e
ok
status 0' 'undorc compile -o db services; machine/boot'
step 'one is down' 'lowered e
ok
status 0' 'machine/manage change -d e'
step 'apply shows what it moves, and moves it' 'lower d
ok
raise d new
ok
lowered d
ok
raised d new
ok
status 0' 'cp -r services/e services/new; cp -r services/e services/more
    printf "%s\n" new more >> services/default/contents; echo new > services/d/dependencies
    machine/manage apply'
is 'it leaves no file' 'no' "$(script 'ls db.next 2> /dev/null || echo no')"
step 'an undo takes it back' 'lowered d new
ok
raised d
ok
status 0' 'machine/manage undo'
step 'with -s it also raises what is new, and not what was lowered by hand' 'lowered d
ok
raised d new
ok
raised more
ok
status 0' 'machine/manage apply -s | tail -n 6'
step 'again nothing moves' 'ok
ok
ok
ok
status 0' 'machine/manage apply -s'
step 'sources that are refused' 'status 1' 'rm services/d/type; machine/manage apply'
step 'options of update' 'lower more
ok
raise more
ok
lowered more
ok
raised more
ok
status 0' 'echo longrun > services/d/type; machine/manage apply -R more'
stop
