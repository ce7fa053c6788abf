# The history of a session across updates: that an update is undone and redone, which database a command uses, and what
# is refused of the file. program.sh reads this file.
mkdir histories
cd histories
: > in

# tree_service TREE NAME NEEDS..: a oneshot whose scripts note what they do in `log`, with the name of the tree
tree_service() {
    tree=$1 name=$2
    shift 2
    mkdir -p "$tree/$name"
    echo oneshot > "$tree/$name/type"
    echo "echo up $name $tree >> log" > "$tree/$name/up"
    echo "echo down $name $tree >> log" > "$tree/$name/down"
    printf '%s\n' "$@" > "$tree/$name/dependencies"
}
# tree_databases TREE..: the database of each tree in a file of its name
tree_databases() {
    for tree; do
        "$program" compile "$tree" > "$tree.db"
    done
}
# scripts_moved LINES: the scripts that were run since this was last asked, in any order
scripts_moved() {
    printf '%b' "$1" > out.wanted
    sort log > out
    : > log
    : > err
    : > err.wanted
    echo 0 > status
    judge "the scripts of $said" 0
}
# does STATUS OUTPUT LOG WORDS..: a command on the session, what it prints, and the scripts that it runs
does() {
    ends=$1 output=$2 scripts=$3
    shift 3
    said="undorc $*"
    expect "$ends" "$output" "$told" '' "$@" -l live
    scripts_moved "$scripts"
    told=''
}
# stands_on DATABASE NAMES: the database of the session, and what is up
stands_on() {
    expect 0 "live$2\nok\n" '' '' live -b "$1.db" -l live
}
# places: where the history stands, and its marks
places() {
    printf '%b' "$1" > out.wanted
    grep -a '^at \|^generation ' live > out
    : > err
    : > err.wanted
    echo 0 > status
    judge "the place and the marks after $said" 0
}
told=''
# names WAY ENTRY..: a command that only shows something says on standard error which entries are on its way
names() {
    way=$1
    shift
    for entry; do told="${told}undorc: $way $entry\n"; done
}
# not_of_session FILE: what is told of a file of -b that is not the database of the session
not_of_session() {
    printf 'undorc: %s is not the database of this session: undorc update -b %s -l live carries it over' "$1" "$1"
}
tree_service one a
tree_service one b a
tree_service one c
tree_service two a
tree_service two b a c
tree_service two c
tree_service two d c
tree_databases one two

# An update is undone by one undo: what it raised goes down by the new scripts, and what it lowered comes up by the old.
# A redo makes it again. Each is one step of the history, and the database is that of the state.
does 0 'raised a b\nok\n' 'up a one\nup b one\n' change b -b one.db
does 0 'lowered b\nok\nraised b c\nok\n' 'down b one\nup b two\nup c two\n' update -b one.db -B two.db
places 'at 1 of 2\ngeneration stop passed\ngeneration passed stop\n'
stands_on two ' a b c'
does 0 'lowered b c\nok\nraised b\nok\n' 'down b two\ndown c two\nup b one\n' undo -b two.db
places 'at 0 of 2\ngeneration stop passed\ngeneration passed stop\n'
stands_on one ' a b'
names 'makes again' '1 -b' '2 update' '3 +b +c'
does 0 'lower b\nok\nraise b c\nok\n' '' redo -n -b one.db
does 0 'lowered b\nok\nraised b c\nok\n' 'down b one\nup b two\nup c two\n' redo -b one.db
places 'at 1 of 2\ngeneration stop passed\ngeneration passed stop\n'
stands_on two ' a b c'
names 'takes back' '3 +b +c' '2 update' '1 -b'
does 0 'lower b c\nok\nraise b\nok\n' '' undo -n -b two.db
stands_on two ' a b c'

# A change after it is undone first; one after its undo cuts off what comes later.
does 0 'raised d\nok\n' 'up d two\n' change d -b two.db
does 0 'lowered d\nok\n' 'down d two\n' undo -b two.db
stands_on two ' a b c'
does 0 'lowered b c\nok\nraised b\nok\n' 'down b two\ndown c two\nup b one\n' undo -b two.db
does 0 'raised c\nok\n' 'up c one\n' change c -b one.db
places 'at 0 of 1\ngeneration stop stop\n'
does 1 'refused NothingToRedo\n' '' redo -b one.db
does 0 'lowered c\nok\n' 'down c one\n' undo -b one.db
does 0 'lowered a b\nok\n' 'down a one\ndown b one\n' undo -b one.db
does 1 'refused NothingToUndo\n' '' undo -b one.db
does 0 'raised a b\nok\n' 'up a one\nup b one\n' redo -b one.db

# The database of the session is the one in its file: another one that is named is told of, and not used.
told="$(not_of_session two.db)\n"
does 0 'raised c\nok\n' 'up c one\n' change c -b two.db
does 0 'lowered c\nok\n' 'down c one\n' undo -b nowhere.db
does 0 'raised c\nok\n' 'up c one\n' redo
does 0 'lowered c\nok\n' 'down c one\n' undo
cp one.db kept.db
"$program" compile -o one.db two
told="$(not_of_session one.db)\n"
does 0 'raised c\nok\n' 'up c one\n' change c -b one.db
mv kept.db one.db
does 0 'lowered c\nok\n' 'down c one\n' undo -b one.db
told="$(not_of_session two.db)\n"
does 0 'a up\nb up\nc down\n' '' status -b two.db

# From the first command on FILE has its database. One of the same services with other dependencies and scripts, which
# replaces the file of -b, is told of and not used; an update takes it, and one undo takes that back.
told=''
mv live kept.live
tree_service late a
tree_service late b
tree_service late c b
cp one.db kept.db
does 0 'raised a b\nok\n' 'up a one\nup b one\n' change b -b one.db
places 'at 0 of 1\ngeneration stop stop\n'
"$program" compile -o one.db late
told="$(not_of_session one.db)\n"
does 0 'raise c\nok\n' '' change -n c -b one.db
told="$(not_of_session one.db)\n"
does 0 'lowered a b\nok\n' 'down a one\ndown b one\n' change -d a -b one.db
told="$(not_of_session one.db)\n"
does 0 'raised a b\nok\n' 'up a one\nup b one\n' undo -b one.db
told="$(not_of_session one.db)\n"
does 0 'raised c\nok\n' 'up c one\n' change c -b one.db
told="$(not_of_session one.db)\n"
does 0 'lowered c\nok\n' 'down c one\n' undo -b one.db
does 0 'lowered b\nok\nraised b\nok\n' 'down b one\nup b late\n' update -b kept.db -B one.db
does 0 'raised c\nok\n' 'up c late\n' change c -b one.db
does 0 'lowered c\nok\n' 'down c late\n' undo -b one.db
does 0 'lowered b\nok\nraised b\nok\n' 'down b late\nup b one\n' undo -b one.db
cp kept.db one.db
stands_on one ' a b'
does 0 'lowered a b\nok\n' 'down a one\ndown b one\n' change -d a -b one.db
mv kept.live live
rm kept.db

# A picture shows the database of the session, and what is up.
"$program" db -l live dot > out
grep -c 'style=filled' out > filled
: > err
echo 0 > status
mv filled out
wants '2\n' ''
judge 'the services that a picture of the session fills' 0


# Several updates are undone in turn, and redone in turn.
tree_service three a
tree_service three e a
tree_databases three
does 0 'lowered b\nok\nraised b c\nok\n' 'down b one\nup b two\nup c two\n' update -b one.db -B two.db
does 0 'lowered b c\nok\nok\n' 'down b two\ndown c two\n' update -b two.db -B three.db
places 'at 2 of 3\ngeneration stop passed\ngeneration passed passed\ngeneration stop stop\n'
stands_on three ' a'

# A query with -l asks the present database, or that of -k, whatever -b names; with -k a picture fills nothing. The file is
# only read.
cp live good
expect 0 'a\ne\n' '' '' db -l live list all
expect 0 'a\ne\n' '' '' db -l live -b one.db list all
expect 0 'a\ne\n' '' 'nothing\n' db -l live -b nowhere.db list all
UNDORC_DB=two.db expect 0 'a\ne\n' '' '' db -l live list all
UNDORC_LIVE=live expect 0 'a\nb\nc\n' '' '' db -b one.db list all
expect 0 '' '' '' db -l live check
expect 0 'a\n' '' '' db -l live dependencies e
expect 0 'a\ne\n' '' '' db -l live -d all-dependencies a
expect 1 '' 'undorc: Unknown b\n' '' db -l live type b
expect 0 'a\nb\nc\n' '' '' db -l live -k 0 list all
expect 0 'a\nb\nc\nd\n' '' '' db -l live -k 1 list all
expect 0 'a\nb\nc\nd\n' '' '' db -l live -b one.db -k +1 list all
expect 0 'a\ne\n' '' '' db -l live -k 2 list all
expect 0 'a\n' '' '' db -l live -k 0 dependencies b
expect 0 'a\nc\n' '' '' db -l live -k 01 dependencies b
expect 1 '' 'undorc: Unknown d\n' '' db -l live -k 0 type d
for number in 3 8 4294967295; do
    expect 1 '' "undorc: NoGeneration $number\n" '' db -l live -k "$number" list all
done
"$program" db -l live -k 3 check 2> err || true
says '^  live holds 3 databases, of generations 0 to 2$'
expect 1 '' 'undorc: NoGeneration 3\n' '' db -l live -b one.db -k 3 dot
for number in 0 1 2; do
    "$program" db -l live -k "$number" dot > out
    case $number in
        0) "$program" db -b one.db dot > out.wanted ;;
        1) "$program" db -b two.db dot > out.wanted ;;
        2) "$program" db -b three.db dot > out.wanted ;;
    esac
    : > err
    : > err.wanted
    echo 0 > status
    judge "undorc db -l live -k $number dot" 0
done
"$program" db -l live dot > out
grep -c 'style=filled' out > filled
: > err
echo 0 > status
mv filled out
wants '1\n' ''
judge 'the services that a picture of the present database fills' 0

# A file that is missing, or holds no history, has no generation, and a query without -k asks -b. Only a picture looks at
# the text of a session.
printf '%b' 'undorc-live 2\nservices a b c\nbound 8\nnow a\nend\n' > plain
for file in nowhere plain one.db; do
    expect 1 '' 'undorc: NoGeneration 0\n' '' db -l "$file" -b one.db -k 0 check
    expect 1 '' 'undorc: NoGeneration 0\n' '' db -b one.db -l "$file" -k 0 dot
    expect 0 'a\nb\nc\n' '' '' db -l "$file" -b one.db list all
    expect 1 '' 'undorc: Unknown d\n' '' db -l "$file" -b one.db type d
done
UNDORC_DB=one.db expect 0 'a\nb\nc\n' '' '' db -l plain list all
expect 1 '' 'undorc: Bad 0\n' 'undorc-live 2\n' db -l plain list all
expect 1 '' 'undorc: Bad 0\n' '' db -b one.db -l one.db dot
expect 111 '' 'undorc: Io\n' '' db -b one.db -l . list all
expect 111 '' 'undorc: Io\n' '' db -b one.db -l . -k 0 list all
sed '1s/1$/2/' good > plain
expect 1 '' 'undorc: Version\n' '' db -b one.db -l plain check
expect 1 '' 'undorc: Version\n' '' db -b one.db -l plain -k 0 check
: > out
cmp -s live good || echo altered > out
: > out.wanted
: > err
: > err.wanted
echo 0 > status
judge 'the file of a session that queries have read' 0
rm good plain

does 0 'raised b c\nok\n' 'up b two\nup c two\n' undo -b three.db
stands_on two ' a b c'
does 0 'lowered b c\nok\nraised b\nok\n' 'down b two\ndown c two\nup b one\n' undo -b two.db
stands_on one ' a b'
does 0 'lowered b\nok\nraised b c\nok\n' 'down b one\nup b two\nup c two\n' redo -b one.db
does 0 'lowered b c\nok\n' 'down b two\ndown c two\n' redo -b two.db
stands_on three ' a'
does 1 'refused NothingToRedo\n' '' redo -b three.db

# An update that moves nothing is undone by crossing the border alone, and one to the same database enters nothing.
cp three.db same.db
does 0 'ok\nok\n' '' update -b three.db -B same.db
places 'at 2 of 3\ngeneration stop passed\ngeneration passed passed\ngeneration stop stop\n'
echo 5000 > three/e/timeout-up
tree_databases three
does 0 'ok\nok\n' '' update -b same.db -B three.db
places 'at 3 of 4\ngeneration stop passed\ngeneration passed passed\ngeneration stop stop\ngeneration stop stop\n'
names 'takes back' '6 update'
does 0 'ok\n' '' undo -n -b three.db
does 0 'ok\n' '' undo -b three.db
places 'at 2 of 4\ngeneration stop passed\ngeneration passed passed\ngeneration stop stop\ngeneration stop stop\n'
does 0 'ok\n' '' redo -b same.db
stands_on three ' a'

# A rename is undone without a restart, and what was restarted is restarted by the old scripts.
rm -rf four
tree_service four z
tree_service four e z
tree_databases four
echo 'a -> z' > renames
does 0 'ok\nok\n' '' update -b three.db -B four.db -f renames
stands_on four ' z'
does 0 'ok\n' '' undo -b four.db
stands_on three ' a'
cp three.db again.db
does 0 'lowered a\nok\nraised a\nok\n' 'down a three\nup a three\n' update -b three.db -B again.db -R a
does 0 'lowered a\nok\nraised a\nok\n' 'down a three\nup a three\n' undo -b three.db
stands_on three ' a'

# At most 8 generations are kept: the oldest goes.
for number in 1 2 3 4 5 6 7; do
    echo "$number" > three/e/timeout-up
    tree_databases three
    "$program" update -b three.db -B three.db -l live > out 2>&1 || true
done
: > log
said='seven updates'
places "at 7 of 8\n$(printf 'generation %s\\n' 'stop stop' 'stop stop' 'stop stop' 'stop stop' 'stop stop' 'stop stop' 'stop stop' 'stop stop')"
for number in 1 2 3 4 5 6 7; do
    "$program" undo -b three.db -l live > out 2>&1 || true
done
said='seven undos'
places "at 0 of 8\n$(printf 'generation %s\\n' 'stop stop' 'stop stop' 'stop stop' 'stop stop' 'stop stop' 'stop stop' 'stop stop' 'stop stop')"

# What only shows an undo or a redo names the entries that it takes back or makes again, as the journal has them, in their
# order: on standard error, and not with -q. An update is two entries and its border, with what goes on by another name.
mv live kept.live
tree_service five a
tree_service five log
tree_service five web log
tree_service six a
tree_service six logger a
tree_service six web logger
tree_databases five six
echo 'log -> logger' > renames
# has_entries PLACE: the journal has `entries`, and stands there
has_entries() {
    expect 0 "$1\n${entries}ok\n" '' '' journal -l live
}
does 0 'raised log web\nok\n' 'up log five\nup web five\n' change web -b five.db
moved='down log five\ndown web five\nup a six\nup logger six\nup web six\n'
does 0 'lowered log web\nok\nraised a logger web\nok\n' "$moved" update -B six.db -f renames
entries='0 +log +web\n1 -log -web ..\n2 update log>logger ..\n3 +a +logger +web\n'
has_entries 'at 4 of 5'
names 'takes back' '3 +a +logger +web' '2 update log>logger' '1 -log -web'
does 0 'lower a logger web\nok\nraise log web\nok\n' '' undo -n
does 0 'lower a logger web\nok\nraise log web\nok\n' '' undo -n -q
does 1 'refused NothingToRedo\n' '' redo -n
has_entries 'at 4 of 5'
moved='down a six\ndown logger six\ndown web six\nup log five\nup web five\n'
does 0 'lowered a logger web\nok\nraised log web\nok\n' "$moved" undo
names 'makes again' '1 -log -web' '2 update log>logger' '3 +a +logger +web'
does 0 'lower log web\nok\nraise a logger web\nok\n' '' redo -n
does 0 'lower log web\nok\nraise a logger web\nok\n' '' redo -n -q
names 'takes back' '0 +log +web'
does 0 'lower log web\nok\n' '' undo -n
does 0 'lowered log web\nok\n' 'down log five\ndown web five\n' undo
does 1 'refused NothingToUndo\n' '' undo -n
names 'makes again' '0 +log +web'
does 0 'raise log web\nok\n' '' redo -n
does 0 'raised log web\nok\n' '' redo -x none
has_entries 'at 1 of 5'

# An update that fails ends on a state that is passed: an undo begins there, and a redo ends there, where none follows.
does 2 'lowered log web\nok\nraised a logger\nfailed web\nok\n' '' update -B six.db -f renames -q -x up:web
entries='0 +log +web\n1 -log -web ..\n2 update log>logger ..\n3 +a +logger ..\n'
has_entries 'at 4 of 5'
names 'takes back' '3 +a +logger' '2 update log>logger' '1 -log -web'
does 0 'lower a logger\nok\nraise log web\nok\n' '' undo -n
does 0 'lowered a logger\nok\nraised log web\nok\n' '' undo -x none
names 'makes again' '1 -log -web' '2 update log>logger' '3 +a +logger'
does 0 'lower log web\nok\nraise a logger\nok\n' '' redo -n
# So does a restart that fails. It leaves no entry where it succeeds.
does 2 'lowered web\nok\nfailed web\nok\n' '' restart web -q -x up:web
entries='0 +log +web\n1 -web ..\n'
has_entries 'at 2 of 3'
names 'takes back' '1 -web'
does 0 'raise web\nok\n' '' undo -n
does 0 'raised web\nok\n' '' undo -x none
names 'makes again' '1 -web'
does 0 'lower web\nok\n' '' redo -n
does 0 'lowered web\nok\nraised web\nok\n' '' restart web -x none
names 'takes back' '0 +log +web'
does 0 'lower log web\nok\n' '' undo -n
# An edit is an entry, of which nothing moves.
does 0 'ok\n' '' add both a log
names 'takes back' '1 both:none>[a,log]'
does 0 'ok\n' '' undo -n
does 0 'ok\n' '' undo -x none
names 'makes again' '1 both:none>[a,log]'
does 0 'ok\n' '' redo -n

# A restart that is killed while a service comes up is named as its file has it, and no next command has entered.
rm -f live live.* begun
tree_service cut a
tree_service cut web a
echo 'echo up web cut >> log; [ ! -e slow ] || { : > begun; until [ -e go ]; do sleep 0.02; done; }' > cut/web/up
tree_databases cut
does 0 'raised a web\nok\n' 'up a cut\nup web cut\n' change web -b cut.db
: > slow
"$program" restart web -l live < /dev/null > /dev/null 2>&1 &
killed=$!
for turn in $(seq 250); do
    [ ! -e begun ] || break
    sleep 0.02
done
kill -KILL "$killed"
wait "$killed" 2> /dev/null || true
told='undorc: a command was cut short: the next one enters what it has moved\n'
names 'takes back' '1 -web'
does 0 'raise web\nok\n' 'down web cut\nup web cut\n' undo -n
rm slow
: > go
sleep 0.2
told='undorc: Recovered\n'
does 0 'raised web\nok\n' '' undo -x none
names 'takes back' '0 +a +web'
does 0 'lower a web\nok\n' '' undo -n

# A session without a history: its database is that of -b, or of the input.
printf '%s\n' 'change b' 'change c' undo | "$program" session -b one.db -x none -l plain > out 2>&1
expect 0 'lower a b\nok\n' 'undorc: takes back 0 +a +b\n' '' undo -n -b one.db -l plain
expect 0 'raise c\nok\n' 'undorc: makes again 1 +c\n' '' redo -n -b one.db -l plain
expect 0 'lower a b\nok\n' 'undorc: takes back 0 +a +b\n' "$(cat one.db)\n" undo -n -l plain
expect 0 'raise c\nok\n' 'undorc: makes again 1 +c\n' "$(cat one.db)\n" redo -n -l plain
expect 0 'lower a b\nok\n' '' '' undo -n -q -b one.db -l plain
first_line_is plain 'undorc-live 2'
rm -f plain live live.*
mv kept.live live


# What is refused of the file: another version, another form, and a border that is none. It is left alone.
# history_refused FAULT COMMAND..: a command that is refused, and leaves the file as it was
history_refused() {
    fault=$1
    shift
    cp live before
    expect 1 '' "$fault" '' "$@"
    cmp -s live before || echo altered > out
    : > out.wanted
    : > err
    : > err.wanted
    echo 0 > status
    judge "what undorc $* leaves" 0
}
cp live good
sed '1s/1$/2/' good > live
history_refused 'undorc: Version\n' change a -l live
history_refused 'undorc: Version\n' live -l live
head -c 100 good > live
history_refused 'undorc: Bad 48\n' change a -l live
{ cat good; echo more; } > live
history_refused "undorc: Bad $(wc -c < good)\n" status -b three.db -l live
rm -f live
: > log
"$program" change b -b one.db -l live > out 2>&1
"$program" update -b one.db -B two.db -l live > out 2>&1
length=$(sed -n 's/^session //p' live | head -n 1)
awk '/^now a$/ && !done { print "now"; done = 1; next } { print }' live |
    sed "s/^session $length\$/session $((length - 2))/" > other
mv other live
history_refused 'undorc: NotJoined 1\n' undo -l live
history_refused 'undorc: NotJoined 1\n' undo -n -l live

# If no controller is named, nothing moves where any change of an undo or a redo would move a longrun: here the second one of
# each. With a controller, and where no program is started, all of it is done.
# still_has FILE: the file of the session has the text of this one
still_has() {
    cmp live "$1" > out 2>&1 || true
    : > out.wanted
    : > err
    : > err.wanted
    echo 0 > status
    judge "what is left of FILE by $said" 0
}
mkdir -p seven/daemon
echo longrun > seven/daemon/type
echo : > seven/daemon/run
chmod +x seven/daemon/run
tree_service seven o
tree_service eight n
tree_service eight o n
tree_databases seven eight
rm -f live
: > log
"$program" change daemon o -b seven.db -l live -c true > out 2>&1
"$program" update -b seven.db -B eight.db -l live -c true > out 2>&1
: > log
cp live updated
told='undorc: NoController daemon\n'
does 1 '' '' undo
still_has updated
told='undorc: NoController daemon\n'
does 1 '' '' undo --to 0
still_has updated
does 0 'lowered n o\nok\nraised daemon o\nok\n' 'down n eight\ndown o eight\nup o seven\n' undo -c true
cp live undone
told='undorc: NoController daemon\n'
does 1 '' '' redo
still_has undone
does 0 'lowered daemon o\nok\nraised n o\nok\n' '' redo -x none
does 0 'lowered n o\nok\nraised daemon o\nok\n' '' undo --to 1 -x none

# Nobody may read a history who may not read its database.
rm -f live
chmod 600 two.db
chmod 644 one.db
"$program" change b -b one.db -l live > out 2>&1
"$program" update -b one.db -B two.db -l live > out 2>&1
stat -c %a live > out
: > err
echo 0 > status
wants '600\n' ''
judge 'the rights of a history of a private database' 0
cd ..
