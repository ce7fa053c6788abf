# shellcheck shell=sh
# What the supervisor and the sources say of a longrun that is live: one that was given up counts as
# failed, edited sources are named, and a run without the right to run gets it in the copy.
disk l
longrun once 'until [ -e /run/over ]; do sleep 0.2; done; exit 1'
printf '#!/bin/sh\nexit 125\n' > once/finish
chmod +x once/finish
longrun plain 'exec sleep 1000'
chmod -x plain/run
longrun other 'exec sleep 1000'
start_scanner l
step 'init' 'status 0' 'undorc compile -o db services; machine/init'
step 'a run without the right to run comes up' 'raised plain
ok
status 0' 'machine/manage change plain'
is 'its source is as it was' no "$(script 'test -x services/plain/run || echo no')"
is 'lint names the source' '/etc/undorc/services/plain/run: no right to run' \
    "$(script 'machine/manage lint 2> /run/x | grep "right to run"')"
step 'a longrun that gives up later comes up first' 'raised once
ok
status 0' 'machine/manage change once'
script ': > /run/over'
within 20 'machine/says | grep -q "^once down$"' || true
sleep 2
is 'its finish keeps it down' 'once down' "$(script 'machine/says | grep once')"
is 'it counts as failed' 'once failed
status 3' "$(does 'machine/manage status once')"
is 'that is said' 'once live, but down' "$(told)"
is 'it counts as failed among all' 'once failed
other down
plain up
status 0' "$(does 'machine/manage status')"
does 'machine/manage change -d once' > "$room/said"

# Under s6 a finish may count the deaths.
if [ "$supervisor" = s6 ]; then
    script 'rm /run/over; echo 2 > services/once/max-death-tally
        printf "#!/bin/sh\nexec s6-permafailon 60 2 1 true\n" > services/once/finish; machine/init'
    step 'one that gives up after two deaths comes up first' 'raised once
ok
status 0' 'machine/manage change once'
    script ': > /run/over'
    within 20 'machine/says | grep -q "^once down$"' || true
    is 'it counts as failed, too' 'once failed
status 3' "$(does 'machine/manage status once')"
    does 'machine/manage change -d once' > "$room/said"
fi

script 'echo "# edited" >> services/plain/run'
is 'status names an edited source' 'plain: its source has changed since init was called' \
    "$(script 'machine/manage status plain 2>&1 > /run/x')"
is 'status of another one does not' 'other down' "$(script 'machine/manage status other 2>&1')"
step 'a restart goes on with the old copy' 'lowered plain
ok
raised plain
ok
status 0' 'machine/manage restart plain'
is 'it names the edited source' 'plain: its source has changed since init was called' "$(told)"
step 'after init it has the new one' 'lowered plain
ok
raised plain
ok
status 0' 'machine/init; machine/manage restart plain'
is 'then nothing is named' 'plain up' "$(script 'machine/manage status plain 2>&1')"

# An init that is killed leaves no file behind the next one.
names='cd /run/undorc/services; echo $(ls -A . .set)'
does "machine/init; $names" > "$room/before"
for tenths in 0 1 2 3 4; do
    script "echo '# again' >> services/other/run
        machine/init & started=\$!; sleep 0.$tenths; kill -KILL \$started; wait \$started" > "$room/said" 2>&1
done
does "machine/init; $names" > "$room/after"
is 'a killed init leaves nothing' '' "$(diff "$room/before" "$room/after")"

# A longrun of the database without a source is named, and nothing waits twenty seconds for it.
begun=$(date +%s)
does 'undorc compile services > /run/x; machine/init' > "$room/said"
usual=$(($(date +%s) - begun)) begun=$(date +%s)
step 'init without the source of a new longrun' 'status 2' 'cp -r services/other services/lost
    undorc compile -o db2 services; rm -r services/lost; UNDORC_DB=$PWD/db2 machine/init'
is 'it says so' 'lost: no such directory in /etc/undorc/services' "$(told)"
is 'it is not waited for' yes "$([ $(($(date +%s) - begun)) -gt $((9 + usual)) ] || echo yes)"
stop
