# What stands after a fault: the mistakes of a newcomer, each with its first line, which scripts read, and with words
# that must stand after it, for people. program.sh reads this file.
# shellcheck source=../trees.sh
. "$here/trees.sh"
mkdir messages
cd messages

# helps STATUS FIRST WORDS.. -- RUN..: a run without an input, which is refused with this line alone in front, and each of
# these texts after it, in a line that begins with two spaces.
helps() {
    wanted=$1
    wants '' "$2"
    shift 2
    behind=
    while [ "$1" != -- ]; do
        behind="$behind$1
"
        shift
    done
    shift
    : > in
    [ ! -e given ] || cp given in
    runs "$@"
    cp err all
    judge "undorc $*" "$wanted"
    printf '%s' "$behind" | while IFS= read -r text; do
        grep -q -F -e "$text" all && sed -n '2,$p' all | grep -q '^  ' || echo "$text"
    done > missed
    passed=$((passed + 1))
    if [ -s missed ]; then
        passed=$((passed - 1))
        failed=$((failed + 1))
        echo "FAILED: undorc $*: there is no line behind the fault with"
        cat missed
        echo 'but:'
        cat all
    fi
}

# notes STATUS TEXT WORDS..: a run that succeeds and says this on standard error.
notes() {
    text=$1
    shift
    : > in
    runs "$@"
    read -r ended < status
    passed=$((passed + 1))
    if [ "$ended" -ne 0 ] || ! grep -q -x -F -e "$text" err; then
        passed=$((passed - 1))
        failed=$((failed + 1))
        echo "FAILED: undorc $*: status $ended, and no line '$text' but:"
        cat err
    fi
}

# Sources without a fault: a oneshot, a longrun that needs it, and a bundle.
newcomer() {
    rm -rf services
    mkdir -p services/disk services/web services/all
    echo oneshot > services/disk/type
    echo 'mkdir q' > services/disk/up
    echo longrun > services/web/type
    : > services/web/run
    chmod u+x services/web/run
    echo disk > services/web/dependencies
    echo bundle > services/all/type
    printf 'web\ndisk\n' > services/all/contents
}

# Windows line ends in each kind of file.
newcomer
printf 'longrun\r\n' > services/web/type
helps 1 'undorc: BadType web\n' 'services/web/type:1:' '"longrun\r\n"' 'Windows line end' -- compile services
newcomer
printf '# needs\ndisk\r\n' > services/web/dependencies
helps 1 'undorc: BadName web\n' 'services/web/dependencies:2: a name can'\''t hold byte 13 (a Windows line end?)' -- compile services
newcomer
printf 'web\r\n' > services/all/contents
helps 1 'undorc: BadName all\n' 'services/all/contents:1:' 'Windows line end' -- compile services
newcomer
printf '5000\r\n' > services/disk/timeout-up
helps 1 'undorc: BadTimeout disk\n' 'services/disk/timeout-up:1:' 'milliseconds' 'Windows line end' -- compile services
newcomer
printf 'mkdir q\r\n' > services/disk/up
notes 'undorc: services/disk/up:1 has a carriage return (a Windows line end?)' compile -v services

# Words that are none of those that may stand there.
newcomer
echo daemon > services/web/type
helps 1 'undorc: BadType web\n' 'services/web/type:1: one of oneshot, longrun and bundle' '"daemon\n"' -- compile services
newcomer
echo 5s > services/disk/timeout-down
helps 1 'undorc: BadTimeout disk\n' 'services/disk/timeout-down:1:' '"5s\n"' 'milliseconds' -- compile services
newcomer
: > services/disk/timeout-up
helps 1 'undorc: BadTimeout disk\n' 'services/disk/timeout-up:1:' -- compile services

# Names.
newcomer
echo 'web disk' > services/all/contents
helps 1 'undorc: BadName all\n' 'services/all/contents:1: a name can'\''t hold a space (one name a line): "web disk"' -- compile services
newcomer
mkdir services/s6rc-x
echo oneshot > services/s6rc-x/type
helps 1 'undorc: BadName s6rc-x\n' 'services/s6rc-x' 'reserved' -- compile services
newcomer
mkdir 'services/my service'
helps 1 'undorc: BadName my service\n' 'services/my service' 'a space' -- compile services
newcomer
echo longrun > services/disk/type
: > services/disk/run
printf 'a\nb\n' > services/web/producer-for
helps 1 'undorc: BadName web\n' 'services/web/producer-for:2: one name may stand here' -- compile services
newcomer
echo dsk > services/web/dependencies
helps 1 'undorc: UnknownIn web dsk\n' 'services/web/dependencies:1: nothing is named dsk; is disk meant?' -- compile services
newcomer
echo idsk > services/web/dependencies
helps 1 'undorc: UnknownIn web idsk\n' 'is disk meant?' -- compile services
newcomer
echo 'web,disk' > services/all/contents
helps 1 'undorc: UnknownIn all web,disk\n' 'services/all/contents:1: nothing is named web,disk' -- compile services
mkdir more more/web
newcomer
helps 1 'undorc: Twice web\n' 'services/web and more/web have one name' -- compile services more

# Files that are missing, or not what they are to be.
newcomer
rm services/web/type
helps 1 'undorc: NoType web\n' 'services/web/type is missing: it holds oneshot, longrun or bundle' -- compile services
newcomer
mv services/web/type services/web/tpye
helps 1 'undorc: NoType web\n' 'services/web/type is missing; services/web/tpye stands there' -- compile services
newcomer
rm services/disk/up
helps 1 'undorc: NoUp disk\n' 'services/disk/up is missing' -- compile services
newcomer
rm services/web/run
helps 1 'undorc: NoRun web\n' 'services/web/run is missing' -- compile services
newcomer
printf 'a\nb\377\n' > services/disk/up
helps 1 'undorc: NotText disk\n' 'services/disk/up:2: the text is to be UTF-8' -- compile services
newcomer
printf 'a\n\nb\0\n' > services/disk/up
helps 1 'undorc: NotText disk\n' 'services/disk/up:3: byte 0' -- compile services
newcomer
head -c 65537 /dev/zero | tr '\0' x > services/disk/up
helps 1 'undorc: TooLong disk\n' 'services/disk/up has more than 65536 bytes' -- compile services
newcomer
rm services/disk/up
mkfifo services/disk/up
helps 111 'undorc: Io disk\n' 'services/disk/up: is a pipe' -- compile services
newcomer
rm services/disk/up
mkdir services/disk/up
helps 111 'undorc: Io disk\n' 'services/disk/up: is a directory' -- compile services
newcomer
: > services/web/dependencies.d
helps 111 'undorc: Io web\n' 'services/web/dependencies.d: is no directory' -- compile services
helps 111 'undorc: Io\n' 'nowhere: no such file or directory' -- compile nowhere
helps 111 'undorc: Io\n' 'services/web/type: is no directory' -- compile services/web/type

# What nothing was said of.
newcomer
notes 'undorc: services/web looks like an entry: name the directory above it' compile services/web
echo disk > services/web/depends
mkdir services/web/event services/web/data
mv services/all/contents services/all/content
notes 'undorc: services/web/depends is not looked at' compile -v services
notes 'undorc: services/all/content is not looked at' compile -v services
notes 'undorc: services/all is a bundle without contents' compile -v services
: > in
wants '' ''
printf 'undorc: services/all/content is not looked at\nundorc: services/all is a bundle without contents\nundorc: services/web/depends is not looked at\n' > err.wanted
runs compile -v services
: > out
judge 'compile -v tells no more than that' 0

# noted WHAT LINE..: these are all the lines of `compile -v`
noted() {
    what=$1
    shift
    wants '' ''
    for line; do printf 'undorc: services/%s\n' "$line"; done > err.wanted
    : > in
    runs compile -v services
    : > out
    judge "$what" 0
}

# Files that a supervisor can't run.
newcomer
chmod a-x services/web/run
: > services/web/finish
: > services/web/check
: > services/disk/run
noted 'files of a longrun without the right to run' 'web/check is not executable' \
    'web/finish is not executable' 'web/run is not executable'
chmod o+x services/web/run
chmod g+x services/web/finish services/web/check
noted 'files that somebody may run'

# Scripts whose interpreter does not exist, or can't be run.
newcomer
: > services/web/finish
chmod +x services/web/finish
echo '#!/nowhere/sh' > services/web/run
echo '#!/nowhere/execlineb -P' > services/disk/up
printf '#! \t/etc/passwd\t-e' > services/disk/down
printf '#!/bin/sh\r\n' > services/web/finish
noted 'interpreters that do not exist, or are no program' 'disk/down: no interpreter "/etc/passwd"' \
    'disk/up: no interpreter "/nowhere/execlineb"' 'web/finish: no interpreter "/bin/sh\r"' \
    'web/run: no interpreter "/nowhere/sh"'
printf '#! /bin/sh -e\n' > services/web/run
printf '#!\t/bin/sh' > services/disk/up
printf '#!/bin/sh\n/nowhere\n' > services/disk/down
printf ' #!/nowhere\n' > services/web/finish
noted 'interpreters that exist'
echo '#!sh -e' > services/web/run
printf '#!\n/bin/sh\n' > services/web/finish
echo '#/nowhere' > services/disk/up
echo '!/nowhere' > services/disk/down
noted 'names without a slash in front, and none' 'web/finish: no interpreter ""' 'web/run: no interpreter "sh"'
cp /bin/true services/web/sh
cp /bin/true services/web/finish
chmod u+x services/web/sh
rm services/disk/down
noted 'one that stands beside the script' 'web/sh is not looked at'

# A database in a file, which a refused run leaves as it was.
newcomer
expect 0 '' '' '' compile -o db services
"$program" compile services > whole
: > in
wants '' ''
cmp db whole > out 2>&1 || echo 'another database' >> out
echo 0 > status
: > err
judge 'compile -o writes what compile prints' 0
rm services/web/type
helps 1 'undorc: NoType web\n' 'services/web/type is missing' -- compile -o db services
cmp db whole > out 2>&1 || echo 'another database' >> out
: > err
echo 0 > status
wants '' ''
[ ! -e db.new ] || echo 'a draft is left' >> out
judge 'a refused compile leaves the file alone' 0
newcomer
helps 111 'undorc: Io\n' 'nowhere/db: no such file or directory' -- compile -o nowhere/db services
ln -s db linked
chmod 640 db
expect 0 '' '' '' compile -o linked services
[ -L linked ] && [ "$(stat -c %a db)" = 640 ] || echo 'the link or the rights are gone' > out
wants '' ''
judge 'a link is followed, and rights stay' 0
# What is no database is not replaced by one; an empty file is.
echo notes > notes
expect 1 '' 'undorc: NotDatabase notes\n' '' compile -o notes services
: > notes.empty
expect 0 '' '' '' compile -o notes.empty services
{ cat notes; head -c 10 notes.empty; } > out
echo 0 > status
: > err
wants 'notes\nundorc-db ' ''
judge 'what compile -o replaces' 0
cp whole db

# It is written beside the file and renamed over it, so who has the file open, or a name of it, has the old one.
ln db older
expect 0 '' '' '' compile -o db services
if [ "$(stat -c %i db)" = "$(stat -c %i older)" ]; then echo 'written in place' > out; fi
wants '' ''
judge 'compile -o writes no file in place' 0
rm older
(umask 022 && "$program" compile -o masked services)
(umask 077 && "$program" compile -o private services)
wants '644\n600\n' ''
stat -c %a masked private > out
judge 'the rights of new databases' 0
rm masked private

# A database that is none.
helps 111 'undorc: Io\n' 'nowhere: no such file or directory' -- db -b nowhere check
helps 111 'undorc: Io\n' 'services: is a directory' -- db -b services check
: > empty
helps 1 'undorc: Bad 0\n' 'empty: an empty file is no database: undorc compile makes one' -- db -b empty check
echo notes > other
helps 1 'undorc: Bad 0\n' 'other is no database: undorc compile makes one' -- plan -b other web
sed 's/$/\r/' whole > windows
helps 1 'undorc: Bad 0\n' 'windows:1: this line has not the form that is due (a Windows line end?)' -- session -b windows -x none
{ cat whole; echo; } > longer
helps 1 "undorc: Bad $(wc -c < whole)\\n" 'nothing may stand behind the line' -- db -b longer check
sed 's/plain/plane/' whole > plane
helps 1 "undorc: Bad $(sed -n '1,2p' whole | wc -c)\\n" 'plane:3: this line has not the form' -- db -b plane check
helps 1 'undorc: Bad 0\n' '-b FILE names one' -- plan web
helps 1 'undorc: Unknown wbe\n' 'is web meant?' -- db -b db type wbe
helps 1 'undorc: Unknown dis\n' 'is disk meant?' -- plan -b db dis
helps 1 'undorc: NotAtomic\n' "the name is a bundle's, and a service is asked about" -- db -b db timeout all
helps 1 'undorc: NotBundle\n' "the name is a service's, and a bundle is asked about" -- db -b db contents web
helps 1 'undorc: NotLongrun\n' "the name is a oneshot's, and a longrun is asked about" -- db -b db pipeline disk
helps 1 'undorc: NotOneshot\n' "the name is a longrun's, and a oneshot is asked about" -- db -b db script web
helps 1 'undorc: PruneNeedsUp\n' '-p goes with' -- plan -b db -d -p web

# Of what is read: which service lacks which need, and a name of a database on standard input.
# helps_on INPUT HELPS..: the run of `helps` after this, on an input
helps_on() {
    printf '%b' "$1" > given
}
helps_on 'web\n'
helps 1 'undorc: NotClosed\n' 'web is up and needs disk, which is not among those listed' -- plan -b db all
cat whole given > front
mv front given
helps 1 'undorc: NotClosed\n' 'web is up and needs disk, which is not among those listed' -- plan all
helps 1 'undorc: Unknown wbe\n' 'nothing is named wbe; is web meant?' -- db type wbe
sed '3s/$/ /' whole > given
helps 1 "undorc: Bad $(sed -n '1,2p' whole | wc -c)\\n" 'standard input:3: this line has not the form' -- db check
rm given

# The answer that refuses a name is as ever, and what helps is told after it.
# answers STATUS ANSWERS HELP INPUT WORDS..
answers() {
    wanted=$1 help=$3
    wants "$2" ''
    printf '%b' "$4" > in
    shift 4
    runs "$@"
    grep -q -x -F -e "  $help" err || echo 'no line that helps' >> out
    judge "undorc $*, with a name that may have been meant" "$wanted"
}
answers 1 'refused Unknown wbe\n' 'nothing is named wbe; is web meant?' '' change -b db -x none wbe
answers 1 'refused Unknown al\n' 'nothing is named al; is all meant?' '' change -n -b db al
answers 1 'refused Unknown wbe\n' 'nothing is named wbe; is web meant?' "$(sed 's/$/\\n/' whole | tr -d '\n')" change -x none wbe
answers 0 'refused Unknown dis\nlive\nok\n' 'nothing is named dis; is disk meant?' 'change dis\nlive\n' session -b db -x none
answers 0 'refused Unknown dis\nlive\nok\n' 'nothing is named dis; is disk meant?' "$(sed 's/$/\\n/' whole | tr -d '\n')change dis\nlive\n" session -x none
answers 0 'refused Unknown -u\n' "options stand in front of a line's word: -u change web" 'change -u web\n' session -b db -x none
answers 1 'refused Unknown nobody\n' 'nothing is named nobody; undorc db -b db list all prints the names' '' change -b db -x none nobody
# The database of a session that has one, whatever -b names, and where there is no -b.
"$program" change web -b db -l owned -x none > setup 2>&1
cp db other
for base in '-b other' ''; do
    # The words stand apart.
    # shellcheck disable=SC2086
    answers 1 'refused Unknown nobody\n' 'nothing is named nobody; undorc db -l owned list all prints the names' '' change nobody -l owned -x none $base
done
helps 1 'undorc: Unknown nobody\n' 'nothing is named nobody; undorc db -l owned list all prints the names' -- update -B db -l owned -R nobody -x none
rm owned other
answers 1 'refused Unknown nobody\n' 'nothing is named nobody in the database on standard input' "$(sed 's/$/\\n/' whole | tr -d '\n')" change -x none nobody
answers 1 'refused NothingToUndo\n' 'no change is left to undo' '' undo -b db -x none
answers 1 'refused NothingToUndo\n' 'no change is left to undo; undorc journal -b db -l bundled prints those that are kept' '' undo -b db -l bundled -x none
answers 0 'refused NothingToUndo\nok\n' 'no change is left to undo; undorc journal -b db -l bundled prints those that are kept' 'undo\nchange\n' session -b db -l bundled -x none
cp db "its db"
answers 1 'refused NothingToUndo\n' "no change is left to undo; undorc journal -b 'its db' -l bundled prints those that are kept" '' undo -b 'its db' -l bundled -x none
rm "its db"
answers 1 'refused NothingToRedo\n' 'no change is undone; undorc journal -b db -l bundled prints where the session stands' '' redo -b db -l bundled -x none
answers 1 'refused PruneNeedsUp\n' '-p goes with neither -d nor -D' '' change -pd -b db -x none web
answers 1 'refused IsAtomic web\n' 'a service has this name, and only bundles are added and deleted' '' add -b db -l bundled web disk
answers 1 'refused Missing nobody\n' 'no bundle has this name; undorc bundles -b db -l bundled prints them' '' delete -b db -l bundled nobody
answers 1 'refused Exists all\n' 'a bundle has this name; -f replaces it' '' add -b db -l bundled all disk

# A command that other programs have, or that was meant, is named after a wrong command line.
# means HELP WORDS..
means() {
    wants "  $1\n" ''
    shift
    runs "$@"
    tail -n 1 err > out
    : > err
    judge "undorc $*, which is no command" 100
}
means 'undorc start web brings services up' up web
means 'undorc start NAME brings services up' up
means "undorc start -b db -l 'my live' web brings services up" up -b db -l 'my live' web
means 'undorc stop -b db web brings services down' down -b db web
means 'undorc cancel calls a command off' stop
means 'undorc cancel -l live calls a command off' stop -b db -l live -q

# Who looks at a session whose file does not exist is told so.
for words in live bundles journal status 'undo -n'; do
    # The words stand apart.
    # shellcheck disable=SC2086
    runs $words -b db -l none
    head -n 1 err > out
    wants 'undorc: none does not exist: nothing is up\n' ''
    : > err
    ended=$(cat status)
    judge "undorc $words, without the file of the session" "$ended"
done

# The file of a session that is none: not taken for the database, nor the database for it.
"$program" change web disk -b db -x none -l state > out
makes_plain state
for text in '' 'notes' ; do
    printf '%s' "$text" > other
    helps 1 'undorc: Bad 0\n' 'no file of a session' -- live -b db -l other
done
sed '3s/$/ /' state > other
helps 1 "undorc: Bad $(sed -n '1,2p' state | wc -c)\\n" 'other:3: this line has not the form that is due' -- live -b db -l other
sed 's/^undorc-live 2/undorc-live 7/' state > other
helps 1 'undorc: Version\n' "other:1: this program reads 'undorc-live 2'" -- session -b db -x none -l other
sed 's/^now .*/now web/' state > other
helps 1 'undorc: NotClosed 1\n' 'other: a service is up without one that it needs, in state 1' -- undo -b db -x none -l other
sed 's/^now .*/now/' state > other
helps 1 'undorc: SameState\n' 'other: two states in a row are the same' -- undo -b db -x none -l other
sed 's/^now .*/now wbe/' state > other
helps 1 'undorc: Unknown\n' 'other: a state names what is no service of the database' -- live -b db -l other
sed 's/^services .*/services disk/' state > other
helps 1 'undorc: OtherDb\n' 'other: the session of another database; name that one by -b, also for undorc update' -- live -b db -l other
helps 1 'undorc: Bad 0\n' 'state is the file of a session: -l names it, and -b a database' -- live -b state -l state
helps 1 'undorc: Bad 0\n' 'db is a database: -b names it, and -l the file of a session' -- live -b db -l db
helps 1 'undorc: Unknown wbe\n' 'nothing is named wbe; is web meant?' -- change web -b db -x up:wbe -l state
helps 111 'undorc: Io\n' 'services: is a directory' -- live -b db -l services
helps 111 'undorc: Io\n' 'nowhere/live.lock: no such file or directory' -- change web -b db -x none -l nowhere/live

# Who has no right to read.
if may_be_nobody 'a file without the right to read'; then
    newcomer
    chmod 0 services/disk/up
    chmod 755 .. .
    cp "$program" ./undorc
    echo 0 > status
    : > out
    setpriv --reuid 65534 --regid 65534 --clear-groups ./undorc compile services > out 2> err || echo $? > status
    cp err all
    wants '' 'undorc: Io disk\n'
    judge 'a file without the right to read' 111
    echo 0 > status
    grep -q -x '  services/disk/up: permission denied' all || echo 1 > status
    : > out
    : > err
    wants '' ''
    judge 'which file, and that permission is denied' 0
fi

# A name that is not UTF-8 is shown with escapes.
mkdir "services/$(printf 'b\377\033[1m')"
helps 111 'undorc: Io\n' 'services/b\xff\x1b[1m: the name is to be UTF-8' -- compile services
helps 111 'undorc: Io\n' 'services/b\xff\x1b[1m: the name is to be UTF-8' -- compile services/
rmdir "services/$(printf 'b\377\033[1m')"
mkdir services/web/dependencies.d
: > "services/web/dependencies.d/$strange"
helps 111 'undorc: Io web\n' 'services/web/dependencies.d/\xff: the name is to be UTF-8' -- compile services
rm -r services/web/dependencies.d

# Words with control characters do nothing to a terminal, and make no line of their own: they are written as escapes.
control=$(printf 'x\033[31m\a\302\233y\nundorc: z')
newcomer
rm -f state state.*
"$program" compile services > db
: > state.log
# escapes WORDS..: what a command of these words reports has the control characters as escapes, and no others
escapes() {
    "$program" "$@" < /dev/null > out 2> err || true
    holds "undorc $1 with control characters writes escapes" grep -q -F 'x\u{1b}[31m\u{7}\u{9b}y' err
    holds "undorc $1 with control characters writes no others" sh -c '! LC_ALL=C grep -q "[[:cntrl:]]" err'
}
escapes live -b "$control" -l state
escapes change web -b db -x none -l "nowhere/$control"
escapes compile "$control"
escapes change -b db -x none -l state "${control%%
*}"
escapes db -b db type "$control"
escapes stop -l "$control"
escapes change -b db -x "up:$control" -l state
escapes "${control%%
*}"
mkdir "services/$control"
escapes compile services
rmdir "services/$control"
"$program" change web -b "./db" -x none -l state < /dev/null > out
"$program" add "all-$(printf '\001')" -b db -l state < /dev/null > out 2>&1 || true
ln -s db "$control"
"$program" undo -b "$control" -l state -x none < /dev/null > out
rm "$control"
# The message about a wrong command line has the newlines that it has without them, and no others.
"$program" change --foo -b db -l state < /dev/null > out 2> err.plain || true
for word in "$(printf -- '--foo\nundorc: x')" "$(printf -- '--foo\033[31m\nundorc: x')"; do
    "$program" change "$word" -b db -l state < /dev/null > out 2> err || true
    says '^error: .*--foo.*\\nundorc: x'
    holds 'a wrong command line makes no line of its own' sh -c '! grep -q "^undorc: x" err'
    holds 'and its message has no other control characters' sh -c '! LC_ALL=C grep -q "[[:cntrl:]]" err'
    holds 'and as many lines as with another word' test "$(wc -l < err)" -eq "$(wc -l < err.plain)"
done
holds 'the log of commands has escapes' grep -q -F 'x\u{1b}[31m\u{7}\u{9b}y\nundorc: z' state.log
holds 'the log of commands has no control characters' sh -c '! LC_ALL=C grep -q "[[:cntrl:]]" state.log'
cd ..
