# `update`: what is lowered, what is raised, what is never moved, what is kept, and how it ends. program.sh reads
# this file.
mkdir updates
cd updates
: > in

# What is told where `-b` has another database than the session.
# unused_base FILE: what is told of a file of -b that is not the database of the session
unused_base() {
    printf 'undorc: %s is not the database of this session: undorc update -b %s -l live carries it over' "$1" "$1"
}
# service NAME NEEDS..: a oneshot in the folder `tree` whose scripts note what they do in `log`
service() {
    mkdir -p "tree/$1"
    echo oneshot > "tree/$1/type"
    echo "echo up $1 >> log" > "tree/$1/up"
    echo "echo down $1 >> log" > "tree/$1/down"
    name=$1
    shift
    printf '%s\n' "$@" > "tree/$name/dependencies"
}
# compiled FILE: the database of `tree`
compiled() { "$program" compile tree > "$1"; }
# old_tree: the tree of the old database
old_tree() {
    rm -rf tree
    service a
    service b a
    service c b
    service d
    service e d
    service f
}
# fresh: what is live before an update: all but `f`
fresh() {
    cp live.old live
    : > log
}
# same_files WHAT FILE FILE: two files are one
same_files() {
    passed=$((passed + 1))
    if ! cmp -s "$2" "$3"; then
        passed=$((passed - 1))
        failed=$((failed + 1))
        echo "FAILED: $1:"
        diff -a -u "$2" "$3" || true
    fi
}
# moved LINES: the scripts that were run, in any order
moved() {
    printf '%b' "$1" > log.wanted
    sort log > log.sorted
    same_files "the scripts of undorc $words" log.wanted log.sorted
}
# kept LIVE JOURNAL: what the file says by the new database
kept() {
    expect 0 "live$1\nok\n" '' '' live -b new -l live
    expect 0 "$2\nok\n" '' '' journal -b new -l live
}
# update STATUS OUTPUT FAULT WORDS..: an update to the database `new`, of what is live in `live`
update() {
    words="update $*"
    ends=$1 output=$2 fault=$3
    shift 3
    expect "$ends" "$output" "$fault" '' update -b old -B new -l live "$@"
}
# signed SIGN NAMES: the names, each behind a sign
signed() {
    # The names stand in one word.
    # shellcheck disable=SC2086
    [ -z "$2" ] || printf " $1%s" $2
}
# entered LOWERED RAISED RENAMES: the journal behind an update of what is live in `live.old`. What it has lowered leads to
# a passed state, and so does its border if it raises something.
entered() {
    text='0 +a +b +c +d +e\n' number=1
    [ -z "$1" ] || text="$text$number$(signed - "$1") ..\\n" number=2
    text="$text$number update$3${2:+ ..}\\n" number=$((number + 1))
    [ -z "$2" ] || text="$text$number$(signed + "$2")\\n" number=$((number + 1))
    printf '%s' "at $number of $((number + 1))\\n${text%??}"
}
# carries LOWERED RAISED LOG LIVE RENAMES [OPTION..]: an update by scripts, what is shown of it before, and the same by a
# table
carries() {
    fresh
    lower='' raise=''
    [ -z "$1" ] || lower="lower$1\\n"
    [ -z "$2" ] || raise="raise$2\\n"
    lowers=$1 raises=$2 logged=$3 lives=$4 journals=$(entered "$1" "$2" "$5")
    shift 5
    update 0 "${lower}ok\n${raise}ok\n" '' -n -q "$@"
    same_files "what update -n leaves" live.old live
    [ -z "$lowers" ] || lower="lowered$lowers\\n"
    [ -z "$raises" ] || raise="raised$raises\\n"
    update 0 "${lower}ok\n${raise}ok\n" '' -x none "$@"
    moved ''
    kept "$lives" "$journals"
    fresh
    update 0 "${lower}ok\n${raise}ok\n" '' "$@"
    moved "$logged"
    kept "$lives" "$journals"
    cp live live.done
    expect 0 'ok\nok\n' '' '' update -b new -B new -l live
}
old_tree
compiled old
expect 0 'raised a b c d e\nok\n' '' '' change c e -b old -l live.old
# It is the text of a session, as `session` makes it: the update makes it a history.
makes_plain live.old

# The same database: nothing moves.
cp old new
carries '' '' '' ' a b c d e' ''

# Scripts, limits and the flag count from the next transition on: nothing moves.
lines='down b\ndown c\nup b\nup c\n'
for file in up down timeout-up timeout-down flag-essential; do
    old_tree
    case $file in
        up | down) echo "echo $file b anew >> log" > "tree/b/$file" ;;
        *) echo 1000 > "tree/b/$file" ;;
    esac
    compiled new
    carries '' '' '' ' a b c d e' ''
    case $file in
        down)
            expect 0 'lowered b c\nok\n' '' '' change -D b -b new -l live
            words='change -D behind an update'
            moved 'down b anew\ndown c\n'
            ;;
    esac
done

# A service needs more, less, or another. What needs it goes with it, what it needs does not.
old_tree
service b a d
compiled new
carries ' b c' ' b c' "$lines" ' a b c d e' ''
old_tree
service b
compiled new
carries ' b c' ' b c' "$lines" ' a b c d e' ''
old_tree
service b d
compiled new
carries ' b c' ' b c' "$lines" ' a b c d e' ''

# It needs what was down, and what is new; that comes up with it.
old_tree
service b a f
compiled new
carries ' b c' ' b c f' 'down b\ndown c\nup b\nup c\nup f\n' ' a b c d e f' ''
old_tree
service b a z
service z
compiled new
carries ' b c' ' b c z' 'down b\ndown c\nup b\nup c\nup z\n' ' a b c d e z' ''

# What is new, or was down, and is needed by nothing that was up stays down, however it is altered.
old_tree
service f a
service z
compiled new
carries '' '' '' ' a b c d e' ''

# It is gone, and so is what needs it; or what needs it needs it no more; or all is gone.
old_tree
rm -r tree/c
compiled new
carries ' c' '' 'down c\n' ' a b d e' ''
old_tree
rm -r tree/b tree/c
compiled new
carries ' b c' '' 'down b\ndown c\n' ' a d e' ''
old_tree
rm -r tree/b
service c a
compiled new
carries ' b c' ' c' 'down b\ndown c\nup c\n' ' a c d e' ''
old_tree
rm -r tree/a tree/b tree/c tree/d tree/e
compiled new
carries ' a b c d e' '' 'down a\ndown b\ndown c\ndown d\ndown e\n' '' ''

# Another service takes a name's place: it is the name that counts.
old_tree
rm -r tree/a
service b
compiled new
carries ' a b c' ' b c' 'down a\ndown b\ndown c\nup b\nup c\n' ' b c d e' ''

# A service becomes a bundle; a bundle that was added to the session is gone.
old_tree
rm -r tree/c
mkdir tree/c
echo bundle > tree/c/type
echo b > tree/c/contents
compiled new
carries ' c' '' 'down c\n' ' a b d e' ''
fresh
printf 'add mine a\n' | "$program" session -b old -x none -l live > out
update 0 'lowered c\nok\nok\n' '' -x none
printf 'bundles\n' | "$program" session -b new -x none -l live > out
wants 'bundle c b\nok\n' ''
: > err
echo 0 > status
judge 'the bundles behind an update are those of the new database' 0

# An essential service that is altered is lowered, too.
old_tree
touch tree/a/flag-essential
compiled old
service a f
compiled new
carries ' a b c' ' a b c f' 'down a\ndown b\ndown c\nup a\nup b\nup c\nup f\n' ' a b c d e f' ''
old_tree
compiled old

# A longrun writes to another one, and needs what it needed.
# writes_to NAME: longruns `first` and `other`, and `writer`, which needs both and writes to this one
writes_to() {
    old_tree
    for name in first other writer; do
        mkdir tree/$name
        echo longrun > tree/$name/type
        echo run > tree/$name/run
    done
    printf 'first\nother\n' > tree/writer/dependencies
    echo "$1" > tree/writer/producer-for
    echo writer > "tree/$1/consumer-for"
}
writes_to first
compiled old.pipe
writes_to other
compiled new.pipe
rm -f pipe.live
expect 0 'raised first other writer\nok\n' '' '' change writer -b old.pipe -x none -l pipe.live
expect 0 'ok\nok\n' '' '' update -n -b old.pipe -B old.pipe -l pipe.live
told='undorc: writer moves: its pipeline changed\n'
expect 0 'lower writer\nok\nraise writer\nok\n' "$told" '' update -n -b old.pipe -B new.pipe -l pipe.live
old_tree

# A longrun in a oneshot's place, by the controller and the runner that are named.
old_tree
rm -r tree/b
mkdir tree/b
echo longrun > tree/b/type
echo run > tree/b/run
echo a > tree/b/dependencies
compiled new
printf '#!/bin/sh\necho "$1 $2, by the controller" >> log\n' > controller
chmod 755 controller
fresh
update 0 'lowered b c\nok\nraised b c\nok\n' '' -c ./controller
moved 'down b\ndown c\nup b, by the controller\nup c\n'
kept ' a b c d e' "$(entered ' b c' ' b c' '')"
cp live live.longrun
# Where no controller is named neither step is begun: the longrun would come up by the new database, or go down by the
# old one. -n and -x do without.
fresh
update 1 '' 'undorc: NoController b\n'
moved ''
same_files 'what an update leaves that would raise a longrun' live.old live
update 1 '' 'undorc: NoController b\n' -R a
update 0 'lower b c\nok\nraise b c\nok\n' '' -n -q
update 0 'lowered b c\nok\nraised b c\nok\n' '' -x none
cp live.longrun live
expect 1 '' 'undorc: NoController b\n' '' update -b new -B old -l live
same_files 'what an update leaves that would lower a longrun' live.longrun live
expect 0 'ok\nok\n' '' '' update -b new -B new -l live
cp live.longrun live
expect 1 '' 'undorc: NoController b\n' '' update -b new -B new -l live -R b
# A conversion that is refused comes first.
expect 1 '' 'undorc: Unknown z\n' '' update -b new -B old -l live -R z
# One that fails on its way up.
fresh
update 2 'lowered b c\nok\nfailed b\nblocked c\nok\n' '' -c false
moved 'down b\ndown c\n'
kept ' a d e' 'at 3 of 4\n0 +a +b +c +d +e\n1 -b -c ..\n2 update ..'

# Nothing is live: in a file that is not there, and in one of a state of nothing.
rm -f nothing
expect 0 'ok\nok\n' '' '' update -b old -B new -l nothing
expect 0 'live\nok\n' '' '' live -b new -l nothing
rm -f nothing nothing.lock
expect 0 'ok\nok\n' 'undorc: nothing does not exist: nothing is up\n' '' update -n -b old -B new -l nothing
find . -name 'nothing*' > made
: > none
same_files 'update -n makes no file' none made

# The bound of the old line is that of the new one.
rm -f live
printf 'change c e\n' | "$program" session -b old -x none -l live -n 7 > out
update 0 'lowered b c\nok\nraised b c\nok\n' '' -x none
grep '^bound' live > out
wants 'bound 7\nbound 7\n' ''
: > err
echo 0 > status
judge 'the bound is carried over' 0

# A service is restarted, though it is unaltered, with what needs it; and so it is by a line of the file.
old_tree
compiled new
: > none
carries ' b c' ' b c' "$lines" ' a b c d e' '' -R b
carries ' b c e' ' b c e' 'down b\ndown c\ndown e\nup b\nup c\nup e\n' ' a b c d e' '' -R e -R b
carries '' '' '' ' a b c d e' '' -R f
printf 'b restart\n' > renames
carries ' b c' ' b c' "$lines" ' a b c d e' '' -f renames
carries '' '' '' ' a b c d e' '' -f none

# A service goes on by another name: nothing moves, what needs it neither, and an undo or a change knows the new name.
# renamed: the tree in which `b` is called `x`
renamed() {
    old_tree
    mv tree/b tree/x
    echo 'echo up x >> log' > tree/x/up
    echo 'echo down x >> log' > tree/x/down
    echo x > tree/c/dependencies
}
renamed
compiled new
printf '# the renames\n\n  b\t->  x  \n' > renames
carries '' '' '' ' a c d e x' ' b>x' -f renames
expect 0 'lowered c x\nok\n' '' '' change -D x -b new -l live
words='change -D behind a rename'
moved 'down c\ndown x\n'
# Without the file it is another service.
carries ' b c' ' c x' 'down b\ndown c\nup c\nup x\n' ' a c d e x' ''
# It is renamed and restarted; its scripts on the way down are those of the old database.
printf 'b -> x restart\n' > renames
carries ' b c' ' c x' 'down b\ndown c\nup c\nup x\n' ' a c d e x' '' -f renames
# Two services exchange their names, and a name passes on to another one.
printf 'd -> a\na -> d\n' > renames
old_tree
service b d
service e a
compiled new
carries '' '' '' ' a b c d e' ' d>a a>d' -f renames
rm -r tree
service a
service b a
service c b
compiled new
printf 'd -> a\n' > renames
carries ' a b c e' ' b c' 'down a\ndown b\ndown c\ndown e\nup b\nup c\n' ' a b c' ' d>a' -f renames
# What was down comes up under its new name only where it is needed.
old_tree
mv tree/f tree/g
compiled new
printf 'f -> g\n' > renames
carries '' '' '' ' a b c d e' ' f>g' -f renames
# A renamed service is altered, or what needs it needs another one besides.
renamed
service x d
compiled new
printf 'b -> x\n' > renames
carries ' b c' ' c x' 'down b\ndown c\nup c\nup x\n' ' a c d e x' ' b>x' -f renames
renamed
service c x d
compiled new
carries ' c' ' c' 'down c\nup c\n' ' a c d e x' ' b>x' -f renames
renamed
service c
compiled new
carries ' c' ' c' 'down c\nup c\n' ' a c d e x' ' b>x' -f renames

# Why each service moves: on standard error, and not with -q.
old_tree
rm -r tree/e
service a d
mkdir tree/d.new
echo longrun > tree/d.new/type
echo run > tree/d.new/run
rm -r tree/d
mv tree/d.new tree/d
compiled new
fresh
told='undorc: a moves: its dependencies changed\nundorc: b moves: its dependency a moves\n'
told=$told'undorc: c moves: its dependency b moves\nundorc: d moves: its kind changed\n'
told=$told'undorc: e moves: it is gone\n'
update 0 'lower a b c d e\nok\nraise a b c d\nok\n' "$told" -n
update 0 'lower a b c d e\nok\nraise a b c d\nok\n' '' -n -q
same_files 'what update -n with reasons leaves' live.old live
cp old new
update 0 'lower c e\nok\nraise c e\nok\n' \
    'undorc: c moves: a restart is requested\nundorc: e moves: a restart is requested\n' -n -R c -R e

# What is refused of conversions: the first line of another form, the first name that stands twice, and then the first
# name that its database lacks; nothing has moved.
old_tree
mv tree/f tree/g
compiled new
# refuses FAULT TEXT [OPTION..]: a text of renames that is refused
refuses() {
    fresh
    fault=$1
    printf '%b' "$2" > renames
    shift 2
    update 1 '' "$fault" -f renames "$@"
    moved ''
    same_files 'what an update leaves whose renames are refused' live.old live
}
refuses 'undorc: BadLine 1\n' 'a\n'
refuses 'undorc: BadLine 2\n' 'a -> a\na ->\n'
refuses 'undorc: BadLine 3\n' '#\n\na => a\n'
refuses 'undorc: BadLine 1\n' 'a -> a again\n'
refuses 'undorc: BadLine 1\n' 'a -> a restart now\n'
refuses 'undorc: BadLine 2\n' 'a -> a\na restart a'
refuses 'undorc: Twice a\n' 'a -> b\na -> d\n'
refuses 'undorc: Twice b\n' 'a -> b\nd -> b\n'
refuses 'undorc: Twice a\n' 'a restart\n' -R a
refuses 'undorc: Twice z\n' 'z -> z\n' -R z -R a
refuses 'undorc: Unknown z\n' 'a -> a\nz -> b\n'
refuses 'undorc: Unknown z\n' 'a -> z\n'
refuses 'undorc: Unknown g\n' 'g -> f\n'
refuses 'undorc: Unknown f\n' 'a -> f\n'
refuses 'undorc: Unknown f\n' '' -R f
refuses 'undorc: Unknown z\n' '' -R z -x up:y
refuses 'undorc: Unknown z\n' '' -n -R z
fresh
update 111 '' 'undorc: Io\n' -f nowhere
update 111 '' 'undorc: Io\n' -f .
same_files 'what an update leaves whose renames are not there' live.old live

# What fails on its way down is not lowered, nor what it needs: the old database stands, and nothing is raised by the new.
old_tree
service b a d
rm -r tree/e
compiled new
fresh
update 2 'lowered c e\nfailed b\nok\n' '' -x down:b
expect 0 'live a b d\nok\n' '' '' live -b old -l live
expect 0 'live a b d\nok\n' "$(unused_base new)\n" '' live -b new -l live
expect 0 'at 2 of 3\n0 +a +b +c +d +e\n1 -c -e ..\nok\n' '' '' journal -b old -l live
# The same command again takes back what stands, and so does an undo.
cp live live.half
update 0 'raised c e\nok\nlowered b c e\nok\nraised b c\nok\n' '' -x none
kept ' a b c d' "$(entered ' b c e' ' b c' '')"
cp live.half live
expect 0 'raised c e\nok\n' '' '' undo -b old -x none -l live
update 0 'lowered b c e\nok\nraised b c\nok\n' '' -x none
kept ' a b c d' "$(entered ' b c e' ' b c' '')"
fresh
update 2 'lowered e\nfailed c\nblocked b\nok\n' '' -x down:c
expect 0 'live a b c d\nok\n' '' '' live -b old -l live
# It has not reached the new database, so a restart takes it back first, and then does its own work.
expect 0 'raised e\nok\nlowered e\nok\nraised e\nok\n' '' '' restart e -b old -x none -l live
expect 0 'live a b c d e\nok\n' '' '' live -b old -l live

# What fails on its way up is not up in the new database, whose journal goes on from there.
fresh
update 2 'lowered b c e\nok\nfailed b\nblocked c\nok\n' '' -x up:b
kept ' a d' 'at 3 of 4\n0 +a +b +c +d +e\n1 -b -c -e ..\n2 update ..'
expect 0 'raised b c\nok\n' 'undorc: an update or a restart was not finished: undorc undo -b new -l live takes it back\n' '' change c -b new -x none -l live
fresh
update 2 'lowered b c e\nok\nraised b\nfailed c\nok\n' '' -x up:c
kept ' a b d' 'at 4 of 5\n0 +a +b +c +d +e\n1 -b -c -e ..\n2 update ..\n3 +b ..'
expect 0 'lowered b\nok\nraised b c e\nok\n' '' '' undo -b new -x none -l live
# A restart takes none of it back.
fresh
update 2 'lowered b c e\nok\nraised b\nfailed c\nok\n' '' -x up:c
expect 0 'lowered b\nok\nraised b\nok\n' 'undorc: an update or a restart was not finished: undorc undo -b new -l live takes it back\n' '' restart b -b new -x none -l live
expect 0 'lowered b\nok\nraised b c e\nok\n' '' '' undo -b new -x none -l live
fresh
update 2 'lowered b c e\nok\nraised b\nfailed c\nok\n' '' -x up:c,down:f,down:a,up:a
kept ' a b d' 'at 4 of 5\n0 +a +b +c +d +e\n1 -b -c -e ..\n2 update ..\n3 +b ..'

# What is refused: nothing is moved, and nothing written.
refused() {
    fresh
    status=$1 fault=$2
    shift 2
    expect "$status" '' "$fault" '' update -l live "$@"
    moved ''
    same_files "what a refused update leaves" live.old live
}
words=refused
refused 1 'undorc: Unknown e\n' -b old -B new -x up:e
refused 1 'undorc: Unknown z\n' -b old -B new -x up:e,down:z
refused 1 'undorc: Unknown z\n' -b old -B new -x down:z
refused 1 'undorc: Bad 0\n' -b log -B new
refused 1 'undorc: Bad 0\n' -b old -B log
refused 1 'undorc: Bad 0\n' -b live -B log
refused 1 'undorc: OtherDb\n' -b new -B old
refused 111 'undorc: Io\n' -b nowhere -B new
refused 111 'undorc: Io\n' -b old -B nowhere
refused 111 'undorc: Io\n' -b . -B new
refused 1 'undorc: Unknown e\n' -n -b old -B new -x up:e
# In a history the database is its own, whatever -b names.
for named in new log nowhere .; do
    fresh
    "$program" change -b old -x none -l live > log
    expect 0 'lowered b c e\nok\nraised b c\nok\n' '' '' update -b "$named" -B new -x none -l live
    expect 0 'lowered b c\nok\nraised b c e\nok\n' '' '' undo -b new -x none -l live
done
echo notes > notes
expect 1 '' 'undorc: Bad 0\n' '' update -b old -B new -l notes
expect 111 '' 'undorc: Io\n' '' update -b old -B new -l .
expect 111 '' 'undorc: Io\n' '' update -b old -B new -l nowhere/live

# Wrong lines.
wrong update -b old -B new -l live -f renames -f renames
wrong update -b old -B new -l live -R
wrong update -l live -x none
says '^undorc: update wants -l, or UNDORC_LIVE, and a new database: -b, UNDORC_DB or -B$'
wrong update -b old -B new
wrong update -b new
wrong update -b old -B new -l live a
wrong update -b old -B new -l live -w 0
wrong update -b old -B new -l live -w 65
wrong update -b old -B new -l live -T x
wrong update -b old -B new -l live -x a
wrong update -b old -B new -l live -u
wrong update -b old -B new -B new -l live
wrong update

# The database of FILE is the old one. The new one is that of -B, or else that of -b.
fresh
wrong update -B new -x none -l live
says '^undorc: this command wants -b, or UNDORC_DB: live has no database$'
expect 1 '' 'undorc: OtherDb\n' '' update -b new -x none -l live
"$program" seal -b old -l live > setup
expect 0 'lowered b c e\nok\nraised b c\nok\n' '' '' update -B new -x none -l live
expect 0 'lowered b c\nok\nraised b c\nok\n' '' '' update -b old -x none -l live
expect 0 'ok\nok\n' '' '' update -b old -x none -l live
expect 0 'lowered b c\nok\nraised b c\nok\n' '' '' undo -x none -l live
expect 0 'lowered b c\nok\nraised b c e\nok\n' '' '' undo -x none -l live
rm live
wrong update -B new -x none -l live
expect 0 'ok\nok\n' '' '' update -b new -x none -l live

# The files that the environment names.
fresh
UNDORC_DB=old UNDORC_LIVE=live
export UNDORC_DB UNDORC_LIVE
told='undorc: b moves: its dependencies changed\nundorc: c moves: its dependency b moves\nundorc: e moves: it is gone\n'
expect 0 'lower b c e\nok\nraise b c\nok\n' "$told" '' update -B new -n
expect 0 'lowered b c e\nok\nraised b c\nok\n' '' '' update -B new -x none -l live
wrong update -B new -x none
unset UNDORC_DB UNDORC_LIVE
kept ' a b c d' "$(entered ' b c e' ' b c' '')"

# Each transition is told with -v, in the order of both steps.
fresh
wants 'lowered b c e\nok\nraised b c\nok\n' 'down c: ok\ndown b: ok\ndown e: ok\nup b: ok\nup c: ok\n'
runs update -b old -B new -l live -x none -v -w 1
timeless err
judge 'update -v' 0

# An output that is full: nothing of the second step is done.
fresh
wants '' 'undorc: Write\n'
echo 0 > status
: > out
"$program" update -b old -B new -x none -l live > /dev/full 2> err || echo $? > status
judge 'an update whose output is full' 111
expect 0 'live a d\nok\n' '' '' live -b old -l live

# Its lock: who holds it hinders an update, and not one that is only shown.
fresh
mkfifo gate
service slow
echo 'read -r x < gate' > tree/slow/up
compiled other
{ "$program" change slow -b other -l other.live > other.out 2>&1 || true; } &
until [ -e other.live ]; do sleep 0.05; done
cp other.live other.before
expect 111 '' 'undorc: Busy\n' '' update -b other -B new -l other.live -x none
expect 0 'ok\nok\n' 'undorc: a command is under way\n' '' update -b other -B new -l other.live -n
same_files 'what an update that is hindered leaves' other.before other.live
{ "$program" update -b other -B new -l other.live -W > waited.out 2> waited.err; echo $? > waited; } &
echo > gate
wait
printf 'lowered slow\nok\nok\n' > wanted
same_files 'an update that waits' wanted waited.out
expect 0 'live\nok\n' '' '' live -b new -l other.live

# Killed at any moment it leaves the old file or the new one.
old_tree
for name in a b c d e; do
    echo 'sleep 0.02' > "tree/$name/up"
    echo 'sleep 0.02' > "tree/$name/down"
done
compiled slow
"$program" change c e -b slow -x none -l slow.live > out
old_tree
compiled new
passed=$((passed + 1))
for tenths in 00 01 02 03 04 05 06 07 08 09 10 11 12 13 14 15 16 17 18 19 20 21; do
    cp slow.live live
    "$program" update -b slow -B new -l live -w 1 > out 2> err &
    updating=$!
    sleep "0.$tenths"
    kill -9 "$updating" 2> /dev/null || true
    wait "$updating" 2> /dev/null || true
    if ! "$program" live -b slow -l live > out 2> err && ! "$program" live -b new -l live > out 2> err; then
        cat err
        echo broken
    fi
done > broken
if [ -s broken ]; then
    passed=$((passed - 1))
    failed=$((failed + 1))
    echo 'FAILED: a killed update leaves neither file:'
    cat broken
fi
cd ..
