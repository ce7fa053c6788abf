# One-shot commands: how they end, that they answer and keep what a session of the same line does, and that
# what only shows something writes nothing. program.sh reads this file.
# shellcheck source=../trees.sh
. "$here/trees.sh"
mkdir oneshots
cd oneshots
printf '%b' "$sample" > base
: > in

# alike STATUS LIST LINE WORDS..: where these transitions fail, the command of these words ends so, and its
# output and its file are those of a session of this one line
alike() {
    status=$1 list=$2 line=$3
    shift 3
    cp live other
    printf '%s\n' "$line" | "$program" session -b base -x "$list" -l other > out.wanted 2> told || true
    firsts told > err.wanted
    runs "$@" -b base -x "$list" -l live
    cmp -s live other || echo 'the files differ' >> err
    judge "undorc $* -x $list, as a session of one line" "$status"
}

# shows STATUS OUTPUT WORDS..: a command that only shows something ends so and says `names`, and the file is left alone:
# the bytes, and the file itself, which is not replaced by one like it
names=
shows() {
    status=$1 output=$2
    shift 2
    cp live live.before
    number=$(stat -c %i live)
    expect "$status" "$output" "$names" '' "$@" -b base -l live
    passed=$((passed + 1))
    if ! cmp -s live live.before || [ "$(stat -c %i live)" != "$number" ] || [ -e live.new ]; then
        passed=$((passed - 1))
        failed=$((failed + 1))
        echo "FAILED: undorc $*: the file was written"
    fi
}

# Two commands in a row, the first of which makes the file; and what is shown between them.
expect 0 'raised net root\nok\n' '' '' change net -b base -x none -l live
shows 0 'live net root\nok\n' live
shows 0 'down db log web\nok\n' live -d
shows 0 'down db log web\nok\n' list -d
shows 0 'at 1 of 2\n0 +net +root\nok\n' journal
shows 0 'raise db log web\nok\n' change -n site
shows 1 'refused Unknown nobody\n' change -n site nobody
shows 1 'refused PruneNeedsUp\n' change -n -p -d net
names='undorc: takes back 0 +net +root\n' shows 0 'lower net root\nok\n' undo -n
shows 0 'lower net root\nok\n' undo -n -q
shows 1 'refused NothingToRedo\n' redo -n
alike 0 none 'change site' change site
alike 0 none 'change site' change site
names='undorc: takes back 1 +db +log +web\n' shows 0 'lower db log web\nok\n' undo -n
alike 0 none undo undo
names='undorc: makes again 1 +db +log +web\n' shows 0 'raise db log web\nok\n' redo -n
alike 0 none redo redo
alike 0 none '-d change log' change -d log

# Each way that a command is refused: nothing has moved.
alike 1 none 'change site nobody' change site nobody
alike 1 none '-pd change net' change -p -d net
alike 1 none redo redo

# What failed, was blocked, or could not be brought down; an undo of what failed, and what is left of it.
alike 2 up:log 'change site' change site
alike 0 none undo undo
alike 2 down:net '-Da change' change -D -a
alike 0 none undo undo
alike 2 down:log undo undo
shows 0 'at 2 of 5\n0 +net +root\n1 +log\n2 +db +web\n3 -db -log -web\nok\n' journal
alike 0 none undo undo
alike 0 none undo undo
alike 1 none undo undo

# Bundles are added and deleted, shown, and brought back.
# edited STATUS LINE WORDS..: the command of these words ends so, and does what a session of one line does
edited() {
    status=$1 line=$2
    shift 2
    cp live other
    printf '%s\n' "$line" | "$program" session -b base -l other > out.wanted 2> told || true
    firsts told > err.wanted
    runs "$@" -b base -l live
    cmp -s live other || echo 'the files differ' >> err
    judge "undorc $*, as a session of one line" "$status"
}
edited 0 'add mine net log' add mine net log
shows 0 'bundle mine log net\nbundle site web\nok\n' bundles
edited 1 'add mine web' add mine web
edited 0 'add -f mine web' add -f mine web
edited 0 'add -f mine' add mine -f
edited 1 'add net web' add net web
edited 1 'add other nobody' add other nobody
edited 0 'delete mine' delete mine
edited 1 'delete mine' delete mine
edited 0 'delete -f mine site' delete -f mine site
shows 0 'ok\n' bundles
edited 0 undo undo
shows 0 'bundle site web\nok\n' bundles
edited 0 undo undo
edited 0 'change mine' change mine -x none
wrong add
wrong add -f
wrong delete
wrong add 'a b' net
says '^undorc: add wants a name first'
wrong add '' net
wrong add s6rc-mine net
wrong bundles mine
wrong add mine net -w 2

# Essential services stay, and that is all that was planned.
rm live
expect 0 'raised db log net root web\nok\n' '' '' change site -b base -x none -l live
shows 0 'down\nok\n' list -d
alike 0 none '-da change' change -d -a

# What is not tried since the limit is reached. The limit is looked at before a service is taken.
mkdir -p slow/first slow/second
echo oneshot | tee slow/first/type > slow/second/type
echo 'sleep 0.3' > slow/first/up
echo 'true' > slow/second/up
echo first > slow/second/dependencies
"$program" compile slow > slow.db
expect 2 'raised first\nuntried second\nok\n' '' '' change second -t 100 -b slow.db -l slow.live
expect 0 'raised second\nok\n' '' '' change second -t 60000 -b slow.db -l slow.live
expect 0 'live first second\nok\n' '' '' live -b slow.db -l slow.live

# An undo, a redo and a change that lowers have the limit of a change, with one worker and with four.
echo 'sleep 0.3' > slow/second/down
echo 'true' > slow/first/down
"$program" compile slow > slow.db
rest='lowered second\nuntried first\nok\n'
for workers in 1 4; do
    rm slow.live
    expect 0 'raised first second\nok\n' '' '' change second -w "$workers" -b slow.db -l slow.live
    expect 2 "$rest" '' '' undo -t 100 -w "$workers" -b slow.db -l slow.live
    expect 0 'raised second\nok\n' '' '' change second -w "$workers" -b slow.db -l slow.live
    expect 2 "$rest" '' '' change -d first -t 100 -w "$workers" -b slow.db -l slow.live
    expect 0 'raised second\nok\n' '' '' change second -w "$workers" -b slow.db -l slow.live
    expect 0 'lowered first second\nok\n' '' '' change -d first -w "$workers" -b slow.db -l slow.live
    expect 0 'raised first second\nok\n' '' '' undo -w "$workers" -b slow.db -l slow.live
    expect 2 "$rest" '' '' redo -t 100 -w "$workers" -b slow.db -l slow.live
done

# A script that fails, and one that is blocked by it.
mkdir -p broken/first broken/second
echo oneshot | tee broken/first/type > broken/second/type
echo 'false' > broken/first/up
echo 'true' > broken/second/up
echo first > broken/second/dependencies
"$program" compile broken > broken.db
expect 2 'failed first\nblocked second\nok\n' '' '' change second -b broken.db -l broken.live

# The first command that writes makes FILE a history of one database, that of -b, with the session that `session` makes of
# its line. `session` keeps the text of a session, and so does a command that reads the database from its input.
# begins_as FORM: FILE is missing, or it is what `session` leaves
begins_as() {
    rm -f live other
    if [ "$1" = plain ]; then
        printf 'change net\nadd mine net\nchange log\nundo\n' | "$program" session -b base -x none -l live > setup
        cp live other
    fi
}
# becomes FORM LIST LINE: the command of this line, with -b and without
becomes() {
    form=$1 list=$2 line=$3
    begins_as "$form"
    printf '%s\n' "$line" | "$program" session -b base -x "$list" -l other > by.line 2> setup
    ends=0
    ! grep -q '^failed ' by.line || ends=2
    ! grep -q '^refused ' by.line || ends=1
    case $line in add* | delete*) trial= ;; *) trial="-x $list" ;; esac
    history_of stop other > wanted
    # Several words stand in one.
    # shellcheck disable=SC2086
    for named in '-b base' ''; do
        begins_as "$form"
        printf '%s\n' "$line" | "$program" session -b base -x "$list" -l other > by.line 2> setup
        : > in
        [ "$named" ] || { cp base in; cp other wanted; }
        cp by.line out.wanted
        : > err.wanted
        runs $line $trial $named -l live
        cmp -s live wanted || echo 'the file is another' >> err
        judge "undorc $line $trial $named on a FILE that is $form" "$ends"
    done
    first_line_is other 'undorc-live 2'
}
mv live kept.live
for form in missing plain; do
    for line in 'change net' 'change site' change 'change nobody' undo redo 'add more log' 'delete mine'; do
        becomes "$form" none "$line"
    done
    becomes "$form" up:net 'change net log'
done
# So do a seal, a restart, an update and an undo to a state that takes a step.
for words in seal 'restart net -x none' 'restart nobody -x none' 'update -B base -x none' 'undo --to 1 -x none'; do
    begins_as plain
    # shellcheck disable=SC2086
    "$program" $words -b base -l live > out 2> setup < /dev/null || true
    first_line_is live 'undorc-history 1'
done
# A command that is refused for its texts or its lock, or that moves nothing back, leaves FILE as it is.
begins_as plain
expect 1 '' 'undorc: NoState 3\n' '' undo --to 3 -b base -l live -x none
expect 0 'ok\n' '' '' undo --to 2 -b base -l live -x none
expect 1 '' 'undorc: Unknown nobody\n' '' change -b base -l live -x up:nobody
expect 1 'refused Unknown nobody\n' '' '' change -n nobody -b base -l live
expect 0 'live net root\nok\n' '' '' live -b base -l live
expect 0 'live net root\nok\n' '' 'live\n' session -b base -l live
passed=$((passed + 1))
cmp -s live other || { passed=$((passed - 1)); failed=$((failed + 1)); echo 'FAILED: the text of a session was written'; }
mv kept.live live
rm -f other wanted by.line

# With -x and -n a command needs no file, and begins with nothing up; without -b the database is that of the input.
expect 0 'live\nok\n' 'undorc: missing does not exist: nothing is up\n' '' live -b base -l missing
expect 0 'down db log net root web\nok\n' 'undorc: missing does not exist: nothing is up\n' "$sample" list -d -l missing
expect 1 'refused NothingToUndo\n' '' '' undo -b base -x none
expect 1 'refused NothingToUndo\n' '' '' undo -n -b base
expect 0 'raised net root\nok\n' '' "$sample" change net -x none
expect 0 'raise net root\nok\n' '' "${sample}what is behind it\n" change -n net
expect 0 'at 0 of 1\nok\n' 'undorc: missing does not exist: nothing is up\n' "$sample" journal -l missing
expect 1 '' 'undorc: missing does not exist: nothing is up\nundorc: Bad 0\n' '' live -l missing

# Files that can't be read, or not written: where something is only shown nothing is written.
mkdir folder
for words in 'change net -x none' 'undo -x none' 'redo -x none' 'change -n net' 'undo -n' 'redo -n' live journal; do
    # shellcheck disable=SC2086
    expect 111 '' 'undorc: Io\n' '' $words -b base -l folder
done
expect 111 '' 'undorc: Io\n' '' live -b folder -l missing
printf '%b' 'notes\n' > notes
expect 1 '' 'undorc: Bad 0\n' '' journal -b base -l notes
expect 1 '' 'undorc: Bad 0\n' '' change net -b base -x none -l notes
expect 1 '' 'undorc: Unknown nobody\n' '' change net -b base -x up:nobody -l live
expect 111 '' 'undorc: Io\n' '' change net -b base -x none -l nowhere/live
expect 0 'live\nok\n' 'undorc: nowhere/live does not exist: nothing is up\n' '' live -b base -l nowhere/live
expect 0 'raise net root\nok\n' 'undorc: nowhere/live does not exist: nothing is up\n' '' change -n net -b base -l nowhere/live

# A look makes no file where there is none, and no lock.
expect 0 'live\nok\n' 'undorc: looked does not exist: nothing is up\n' '' live -b base -l looked
expect 0 'at 0 of 1\nok\n' 'undorc: looked does not exist: nothing is up\n' '' journal -b base -l looked
expect 0 'raise net root\nok\n' 'undorc: looked does not exist: nothing is up\n' '' change -n net -b base -l looked
expect 1 'refused NothingToUndo\n' 'undorc: looked does not exist: nothing is up\n' '' undo -n -b base -l looked
expect 1 'refused NothingToRedo\n' 'undorc: looked does not exist: nothing is up\n' '' redo -n -b base -l looked
passed=$((passed + 1))
for file in looked*; do
    [ ! -e "$file" ] || { passed=$((passed - 1)); failed=$((failed + 1)); echo "FAILED: a look made $file"; }
done

# A new file has the rights that the caller's mask leaves.
(umask 022 && "$program" change net -b base -x none -l masked > /dev/null)
(umask 077 && "$program" change net -b base -x none -l private > /dev/null)
wants '644\n600\n' ''
stat -c %a masked private > out
: > err
echo 0 > status
judge 'the rights of new files of sessions' 0
mkdir -p kept.new
cp live kept
touch kept.new/held
expect 111 '' 'undorc: Io\n' '' undo -b base -x none -l kept
shows 0 'at 2 of 3\n0 +db +log +net +root +web\n1 -db -log -net -web\nok\n' journal
cp kept kept.before
expect 0 'live root\nok\n' '' '' live -b base -l kept
passed=$((passed + 1))
cmp -s kept kept.before || { passed=$((passed - 1)); failed=$((failed + 1)); echo 'FAILED: a look wrote'; }

# An output that is full: the command is done and kept, and nobody is answered.
rm live
wants '' 'undorc: Write\n'
echo 0 > status
: > out
"$program" change net -b base -x none -l live > /dev/full 2> err || echo $? > status
judge 'a one-shot command whose output is full' 111
shows 0 'live net root\nok\n' live

# The files that the environment names, where the words name none.
UNDORC_DB=base UNDORC_LIVE=live
export UNDORC_DB UNDORC_LIVE
expect 0 'live net root\nok\n' '' '' live
expect 1 'refused NothingToUndo\n' '' '' undo -x none
expect 0 'lowered net root\nok\n' '' '' undo -x none -l live
expect 0 'live\nok\n' '' 'live\n' session -x none
session_text live > plain
expect 1 '' 'undorc: Bad 0\n' '' live -b notes -l plain
told='undorc: notes is not the database of this session: undorc update -b notes -l live carries it over\n'
expect 0 'live\nok\n' "$told" '' live -b notes
unset UNDORC_LIVE
expect 0 'live\nok\n' '' '' live -l live
UNDORC_DB=''
expect 0 'live\nok\n' '' "$sample" live -l live
unset UNDORC_DB
# One that is no text is named, and only to commands that use it.
for variable in UNDORC_DB UNDORC_LIVE UNDORC_RUNNER UNDORC_CONTROLLER UNDORC_OUTPUT; do
    export "$variable=$strange"
    expect 0 "$(grep -m 1 '^undorc ' "$top/NEWS")\n" '' '' version
    expect 0 'live\nok\n' '' '' live -b base -l live
    expect 0 'raised net root\nok\n' '' '' change net -b base -x none -l other.live
    case $variable in
        UNDORC_DB) wrong change net -x none ;;
        UNDORC_LIVE) wrong live -b base ;;
        *) wrong change net -b base -l other.live ;;
    esac
    says "^undorc: $variable is not UTF-8\$"
    unset "$variable"
    rm other.live*
done

expect 0 "$(grep -m 1 '^undorc ' "$top/NEWS")\n" '' '' version

# From here on `net` and `root` are up.
"$program" change net -b base -x none -l live > out

# unaltered WHAT LEFT: the file `shut/live` is as it was, and nothing but its lock stands beside it
unaltered() {
    passed=$((passed + 1))
    if ! cmp -s shut/live live || [ "$(ls shut)" != "$2" ]; then
        passed=$((passed - 1))
        failed=$((failed + 1))
        echo "FAILED: $1: the file is another, or something is left:"
        ls shut
    fi
}

# A directory that may not be written: a look needs no right to.
mkdir shut
cp live shut
if may_be_nobody 'a directory that may not be written'; then
    chmod 755 .. . shut
    chmod 644 base shut/live
    cp "$program" undorc
    printf '#!/bin/sh\nexec setpriv --reuid 65534 --regid 65534 --clear-groups %s/undorc "$@"\n' "$PWD" > nobody
    chmod 755 undorc nobody
    owned=$program
    program=$PWD/nobody
    expect 111 '' 'undorc: Io\n' '' change site -b base -x none -l shut/live
    expect 0 'live net root\nok\n' '' '' live -b base -l shut/live
    expect 0 'raise db log web\nok\n' '' '' change -n site -b base -l shut/live
    program=$owned
    unaltered 'a directory that may not be written' live
fi

# A disk that is full: what stands there stays, and nothing beside it.
echo 0 > status
{
    trap '' XFSZ
    ulimit -f 0
    "$program" change site -b base -x none -l shut/live 2>&1 || echo $?
} | sed '/^  /d' > out
: > err
wants 'undorc: Io\n111\n' ''
judge 'a one-shot command whose file may have no bytes' 0
unaltered 'a file that may have no bytes' 'live
live.lock'
rm shut/live.lock
if [ "$(id -u)" -ne 0 ] || ! mount -t tmpfs -o size=16k,mode=755 none shut 2> /dev/null; then
    skip 'a full disk, which takes root and the right to mount'
else
    cp live shut
    cat /dev/zero > shut/zeros 2> /dev/null || true
    expect 111 '' 'undorc: Io\n' '' change site -b base -x none -l shut/live
    expect 0 'live net root\nok\n' '' '' live -b base -l shut/live
    unaltered 'a full disk' 'live
live.lock
zeros'
    rm shut/zeros
    expect 0 'raised db log web\nok\n' '' '' change site -b base -x none -l shut/live
    umount shut
fi

# A command that is killed at any moment leaves its file as it was, or as it makes it. The last moment comes after
# three times as long as a whole command takes.
cp live before
begun=$(date +%s%N)
"$program" change site -b base -x none -l live > out
took=$((($(date +%s%N) - begun) / 1000))
cp live after
unlike=0 cut=0 whole=0
for moment in $(seq 100); do
    cp before live
    micros=$((moment * moment * took * 3 / 10000 + 1))
    timeout -s KILL "$(printf '%d.%06d' $((micros / 1000000)) $((micros % 1000000)))" \
        "$program" change site -b base -x none -l live > out 2> err || true
    if cmp -s live before; then
        cut=$((cut + 1))
    elif cmp -s live after; then
        whole=$((whole + 1))
    else
        unlike=$((unlike + 1))
    fi
done 2> /dev/null
[ "$cut" -gt 3 ] && [ "$whole" -gt 0 ] || unlike=$((unlike + 1))
: > out
: > err
wants '' ''
echo "$unlike" > status
judge 'commands that were killed (the status is the number of those that left something else)' 0
cp before live
alike 0 none 'change site' change site
[ ! -e live.new ] || { failed=$((failed + 1)); echo 'FAILED: what a killed command left is still there'; }

# Scripts under a one-shot command: one that ignores that it is to end, one that leaves a child behind
# with its output, one that writes 100 MB, and one that reads its input.
begin_tree
oneshot deaf "trap '' TERM; while :; do sleep 0.1; done"
limit deaf 1
oneshot leaves 'sleep 50 & echo $! > child'
oneshot reads 'wc -c > count'
oneshot writes 'head -c 100000000 /dev/zero'
"$program" compile tree > scripts.db
expect 2 'raised leaves reads writes\nfailed deaf\nok\n' '' 'not a line\n' change deaf leaves reads writes -b scripts.db -l scripts.live
kill "$(cat child)" || { failed=$((failed + 1)); echo 'FAILED: what a script left behind is gone'; }
wants '0\n' ''
tr -d ' ' < count > out
: > err
echo 0 > status
judge 'what a script of a one-shot command reads' 0
expect 0 'lowered leaves reads writes\nok\n' '' '' undo -b scripts.db -l scripts.live
cd ..
