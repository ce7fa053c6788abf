# `restart`: what is named goes down with all that needs it, and what went down comes up again. program.sh reads this
# file.
# shellcheck source=../trees.sh
. "$here/trees.sh"
mkdir restarts
cd restarts
cp "$samples/sample.txt" base
: > in
# starts NAME..: these are up, and nothing else
starts() {
    rm -f live live.run
    "$program" change "$@" -b base -l live -x none > setup
}
# leaves_down NAME..: the next restart says that these are down
downs=
leaves_down() {
    for name; do
        downs="${downs}undorc: $name is down, and a restart leaves it down\n"
    done
}
# goes STATUS OUTPUT JOURNAL WORDS..: a restart, and the journal behind it
goes() {
    ends=$1 output=$2 entries=$3
    shift 3
    expect "$ends" "$output" "$downs" '' restart -b base -l live "$@"
    downs=
    expect 0 "$entries" '' '' journal -b base -l live
}

# previews STATUS OUTPUT WORDS..: a restart that is only shown, which leaves the file alone and makes no other
previews() {
    ends=$1 output=$2
    shift 2
    cp live before
    printf '%s\n' live* > beside
    expect "$ends" "$output" '' '' restart -n -b base -l live "$@"
    printf '%s\n' live* > after
    if cmp -s live before && cmp -s after beside; then
        passed=$((passed + 1))
    else
        failed=$((failed + 1))
        echo "FAILED: restart -n $*: a file was written"
    fi
}

starts web
previews 0 'lower web\nok\nraise web\nok\n' web
previews 0 'lower db net web\nok\nraise db net web\nok\n' site net -x none
previews 1 'refused Unknown nobody\n' web nobody
goes 0 'lowered web\nok\nraised web\nok\n' 'at 1 of 2\n0 +db +log +net +root +web\nok\n' web -x none
# With all that needs it, essential services too, and nothing else.
starts web
goes 0 'lowered db net web\nok\nraised db net web\nok\n' 'at 1 of 2\n0 +db +log +net +root +web\nok\n' net -x none
starts web
goes 0 'lowered db net root web\nok\nraised db net root web\nok\n' 'at 1 of 2\n0 +db +log +net +root +web\nok\n' \
    root -x none
# What is down stays down, also where it is named.
starts net log
leaves_down web
goes 0 'lowered net\nok\nraised net\nok\n' 'at 1 of 2\n0 +log +net +root\nok\n' net web -x none
starts net
previews 0 'ok\nok\n' log web
previews 0 'lower net root\nok\nraise net root\nok\n' root log
leaves_down log web
goes 0 'ok\n' 'at 1 of 2\n0 +net +root\nok\n' log web -x none
echo 0 > status
"$program" restart -b base -l live web -x none < in 2>&1 | tail -n 1 > out
: > err
wants '  undorc start -b base -l live web brings it up\n' ''
judge 'what brings up a service that a restart leaves down' 0
leaves_down site
goes 0 'lowered net\nok\nraised net\nok\n' 'at 1 of 2\n0 +net +root\nok\n' net site -x none
rm live
leaves_down web
goes 0 'ok\n' 'at 0 of 1\nok\n' web -x none
# A bundle's name stands for its services. There is no entry, so an undo takes back the command before it, and a redo does
# not lower anything.
starts web
goes 0 'lowered web\nok\nraised web\nok\n' 'at 1 of 2\n0 +db +log +net +root +web\nok\n' site -x none
expect 1 'refused NothingToRedo\n' '' '' redo -b base -l live -x none
expect 0 'lowered db log net root web\nok\n' '' '' undo -b base -l live -x none
# What was undone before it can't be made again, unless it moves nothing.
starts web
"$program" undo -b base -l live -x none > setup
"$program" change -b base -l live -x none net > setup
"$program" change -b base -l live -x none log > setup
"$program" undo -b base -l live -x none > setup
leaves_down web
goes 0 'ok\n' 'at 1 of 3\n0 +net +root\n1 +log\nok\n' web -x none
goes 0 'lowered net\nok\nraised net\nok\n' 'at 1 of 2\n0 +net +root\nok\n' net -x none

# What fails on the way down stays up with what it needs; what went down comes up all the same.
starts web
goes 2 'lowered web\nfailed db\nblocked net\nok\nraised web\nok\n' 'at 1 of 2\n0 +db +log +net +root +web\nok\n' \
    net -x down:db
starts web
goes 2 'failed web\nok\n' 'at 1 of 2\n0 +db +log +net +root +web\nok\n' web -x down:web
# What fails on the way up stays down with what needs it. An undo takes that back, and so does the next restart.
starts web
goes 2 'lowered db net web\nok\nraised net\nfailed db\nblocked web\nok\n' \
    'at 2 of 3\n0 +db +log +net +root +web\n1 -db -web ..\nok\n' net -x up:db
cp live was
expect 0 'raised db web\nok\n' '' '' undo -b base -l live -x none
expect 0 'at 1 of 3\n0 +db +log +net +root +web\n1 -db -web ..\nok\n' '' '' journal -b base -l live
cp was live
goes 0 'raised db web\nok\nlowered web\nok\nraised web\nok\n' 'at 1 of 2\n0 +db +log +net +root +web\nok\n' web -x none
cp was live
goes 2 'raised db\nfailed web\nok\n' 'at 2 of 4\n0 +db +log +net +root +web\n1 -web\n2 -db ..\nok\n' net -x up:web
# One that is refused behind that has status 2.
cp was live
goes 2 'raised db web\nok\nrefused Unknown nobody\n' 'at 1 of 3\n0 +db +log +net +root +web\n1 -db -web ..\nok\n' \
    nobody -x none

# What is refused moves nothing.
starts web
cp live was
expect 1 '' 'undorc: Unknown nobody\n' '' restart web -b base -l live -x up:nobody
printf '%b' "$none" > other
makes_plain live
cp live plain
expect 1 '' 'undorc: OtherDb\n' '' restart web -b other -l live -x none
expect 111 '' 'undorc: Io\n' '' restart web -b missing -l live -x none
cmp -s live plain || echo 'the file differs' >> out
judge 'a restart that is refused on the text of a session' 111
cp was live
exec 7>> live.lock
flock 7
expect 0 'lower web\nok\nraise web\nok\n' '' '' restart -n web -b base -l live
expect 111 '' 'undorc: Busy\n' '' restart web -b base -l live -x none
exec 7>&-
cmp -s live was || echo 'the file differs' >> out
judge 'a restart that is refused' 111
goes 1 'refused Unknown nobody\n' 'at 1 of 2\n0 +db +log +net +root +web\nok\n' web nobody -x none
wrong restart
wrong restart -b base -l live
wrong restart web -b base
wrong restart web -l plain
says '^undorc: this command wants -b, or UNDORC_DB: plain has no database$'
wrong restart -n -b base -l live
wrong restart web -b base -l live -n -n
wrong restart web -b base -l live -t 5

# In a history its own database counts, whatever -b names.
told='undorc: other is not the database of this session: undorc update -b other -l live carries it over\n'
expect 0 'lowered web\nok\nraised web\nok\n' "$told" '' restart web -b other -l live -x none
expect 0 'lowered web\nok\nraised web\nok\n' '' '' restart web -b missing -l live -x none
expect 0 'lowered web\nok\nraised web\nok\n' '' '' restart web -l live -x none
expect 0 'at 1 of 2\n0 +db +log +net +root +web\nok\n' '' '' journal -b base -l live

# By real scripts, each once, and in the order of needs.
begin_tree
oneshot a 'echo up a >> log'
down a 'echo down a >> log'
oneshot b 'echo up b >> log' a
down b 'echo down b >> log'
oneshot c 'echo up c >> log'
down c 'echo down c >> log'
"$program" compile tree > base
rm live
"$program" change b c -b base -l live < /dev/null > setup
: > log
expect 0 'lowered a b\nok\nraised a b\nok\n' '' '' restart a -b base -l live
wants 'down b\ndown a\nup a\nup b\n' ''
cp log out
: > err
echo 0 > status
judge 'the scripts of a restart' 0
cd ..
