# `status`: where services stand, by FILE and, while a command is under way, by its run log. program.sh reads this
# file.
# shellcheck source=../trees.sh
. "$here/trees.sh"
mkdir status_of
cd status_of
cp "$samples/sample.txt" base
: > in

# Where no command is under way FILE says it, and names in any order are answered in that of their bytes.
expect 0 '' 'undorc: live does not exist: nothing is up\n' '' status -b base -l live
expect 3 '' 'undorc: live does not exist: nothing is up\n' '' status -b base -l live net
expect 0 '' 'undorc: live does not exist: nothing is up\n' '' status -f -b base -l live net
expect 1 'refused Unknown nobody\n' 'undorc: live does not exist: nothing is up\n' '' status -b base -l live nobody
"$program" change net -b base -l live -x none > setup
expect 0 'db down\nlog down\nnet up\nroot up\nweb down\n' '' '' status -b base -l live
expect 0 'net up\nroot up\n' '' '' status root net -b base -l live
expect 3 'net up\nweb down\n' '' '' status web net -b base -l live
expect 3 'web down\n' '' '' status site -b base -l live
expect 1 'refused Unknown nobody\n' '' '' status net nobody other -b base -l live
"$program" add both net root site -b base -l live > setup
expect 3 'net up\nroot up\nweb down\n' '' '' status both -b base -l live

# logged LINES: the run log of a command that is under way or was cut short
logged() {
    session_text live > live.run
    printf '%b' "$1" >> live.run
}
# No command is under way, and status says so. It does not know where the one that was cut short has left what it
# was moving.
cut='undorc: a command was cut short: the next one enters what it has moved\n'
logged '-t 1 -u change web\ntake 1 db\ntake 2 log\ndone 2 log ok\ndone 1 db failed 3\n'
expect 0 'db failed\nlog up\nnet up\nroot up\nweb down\n' "$cut" '' status -b base -l live
expect 3 'db failed\n' "$cut" '' status db -b base -l live
expect 0 'log up\n' "$cut" '' status log -b base -l live
logged '-t 1 -u change web\ntake 1 db\ntake 2 log\n'
expect 0 'db unknown\nlog unknown\nnet up\nroot up\nweb down\n' "$cut" '' status -b base -l live
expect 3 'db unknown\nlog unknown\n' "$cut" '' status -f -b base -l live
expect 3 'log unknown -\n' "$cut" '' status -v log -b base -l live
logged '-t 1 -D change root\ntake 1 net\n'
expect 3 'net unknown\n' "$cut" '' status net -b base -l live
logged '-t 1 -D change root\ntake 1 net\ndone 1 net ok\n'
expect 3 'net down\nroot up\n' "$cut" '' status net root -b base -l live
logged '-t 1 -D change root\ntake 1 net\ndone 1 net timeout\n'
expect 3 'net failed\n' "$cut" '' status net -b base -l live
# A line that was not written whole says nothing; nor does a log of another text, or one that fits no command.
logged '-t 1 -D change root\ntake 1 net\ndone 1 net o'
expect 3 'net unknown\n' "$cut" '' status net -b base -l live
logged 'take 1 net\n'
expect 0 'net up\n' "$cut" '' status net -b base -l live
cp base live.run
expect 0 'net up\n' '' '' status net -b base -l live
rm live.run

# Both files stay as they are, no lock is taken, and nothing is made.
rm -f live.lock
cp live was
exec 7>> live.lock
flock 7
expect 0 'net up\n' '' '' status net -b base -l live
exec 7>&-
rm live.lock
wants '' ''
ls live.* > out 2> setup || true
cmp -s live was || echo 'the file differs' >> out
: > err
echo 0 > status
judge 'status leaves all as it is' 0
expect 0 '' 'undorc: missing does not exist: nothing is up\n' '' status -b base -l missing
printf '%b' "$none" > other
session_text live > plain
expect 1 '' 'undorc: OtherDb\n' '' status -b other -l plain
told='undorc: other is not the database of this session: undorc update -b other -l live carries it over\n'
expect 0 'net up\n' "$told" '' status net -b other -l live
expect 1 '' 'undorc: Bad 0\n' '' status -b live -l base
mkdir folder
expect 111 '' 'undorc: Io\n' '' status -b base -l folder
expect 111 '' 'undorc: Io\n' '' status -b missing -l plain
expect 0 'net up\n' '' '' status net -b missing -l live
wrong status
wrong status -b base
wrong status -l plain net
says '^undorc: this command wants -b, or UNDORC_DB: plain has no database$'
wrong status -l missing
expect 0 'net up\n' '' '' status net -l live
wrong status -b base -l live -W
wrong status -b base -l live -x none
UNDORC_DB=base UNDORC_LIVE=live expect 0 'net up\n' '' '' status net

# A command that is under way, with real scripts.
begin_tree
oneshot quick 'true'
oneshot slow ': > begun; until [ -e go ]; do sleep 0.02; done' quick
oneshot bad 'exit 1'
oneshot above 'true' slow
"$program" compile tree > base
rm live
"$program" change above bad -b base -l live > change.out 2> change.err < /dev/null &
changing=$!
for turn in $(seq 250); do
    [ ! -e begun ] || ! grep -q 'bad failed' live.run 2> setup || break
    sleep 0.02
done
expect 0 'above down\nbad failed\nquick up\nslow rising\n' '' '' status -b base -l live
: > go
wait "$changing" || true
wants 'above up\nbad failed up failed:1 TIME 0\nquick up\nslow up\n' ''
: > in
runs status -b base -l live
sed -i -E 's/ [0-9]{4}-[0-9-]*T[0-9:]*Z / TIME /' out
judge 'status of a service that failed' 0
cd ..
