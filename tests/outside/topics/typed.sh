# The words that administrators type: `start` and `stop`, which are changes one way; `list`, `cancel` and `--version`;
# and the programs of -r and -c, which are looked at before anything moves. program.sh reads this file.
# shellcheck source=../trees.sh
. "$here/trees.sh"
mkdir typed
cd typed
cp "$samples/sample.txt" base
: > in

# goes_as WORDS.. -- WORDS..: two commands, each on a file with the same session, end alike and leave the same file
goes_as() {
    words=
    while [ "$1" != -- ]; do
        words="$words $1"
        shift
    done
    shift
    for file in first second; do
        rm -f "$file" "$file.lock"
        "$program" change web -b base -l "$file" -x none > setup
        "$program" change -d web -b base -l "$file" -x none > setup
    done
    echo 0 > ended
    # shellcheck disable=SC2086
    "$program" $words -b base -l first < in > out.wanted 2> err.wanted || echo $? > ended
    echo 0 > status
    "$program" "$@" -b base -l second < in > out 2> err || echo $? > status
    sed 's/-l second/-l first/g' err > told
    mv told err
    sed '/^  /d' err.wanted > told
    mv told err.wanted
    judge "undorc $*, beside undorc$words" "$(cat ended)"
    holds "undorc $* leaves what undorc$words leaves" cmp -s first second
}
goes_as change -u web -x none -- start web -x none
goes_as change web -n -x none -- start web -n -x none
goes_as change -u -p log -x none -- start -p log -x none
goes_as change -u -a web -x none -- start -a web -x none
goes_as change -u site -x up:web -w 1 -- start site -x up:web -w 1
goes_as change nobody -x none -- start nobody -x none
goes_as change web -t 0 -v -w 1 -x none -- start web -t 0 -v -w 1 -x none
goes_as change -d net -x none -- stop net -x none
goes_as change -d net -n -x none -- stop net -n -x none
goes_as change -da -x none -- stop -a -x none
goes_as change -d net -x down:net -w 1 -q -- stop net -x down:net -w 1 -q
goes_as change -d nobody -x none -- stop nobody -x none
goes_as live -- list
goes_as live -W -- list -W

expect 0 'raise db log net root web\nok\n' 'undorc: live does not exist: nothing is up\n' '' start web -n -b base -l live
expect 0 'raised db log net root web\nok\n' '' '' start web -b base -l live -x none
expect 0 'lower db net web\nok\n' '' '' stop net -n -b base -l live
expect 0 'lower db log net web\nkept root\nok\n' '' '' stop -na -b base -l live
expect 0 'lowered web\nok\n' '' '' stop site -b base -l live -x none
expect 0 'live db log net root\nok\n' '' '' list -b base -l live
expect 0 'raised web\nok\n' '' '' undo -b base -l live -x none

# No way is said behind these words, and they want a name, or all that is up.
# lacks_name HELP WORDS..: a command that names nothing
lacks_name() {
    help=$1
    shift
    runs "$@"
    cp err out
    wants "undorc: start and stop want a name, or -a\n$help" ''
    : > err
    judge "undorc $*, which names nothing" 100
}
lacks_name '' start
lacks_name '' start -n -b base -l live -x none
lacks_name '  undorc cancel calls a command off\n' stop
lacks_name '  undorc cancel -l live calls a command off\n' stop -l live
lacks_name '  undorc cancel -l live calls a command off\n' stop -n -b base -l live -x none
for word in start stop; do
    for way in -u -d -D; do
        wrong "$word" "$way" web -b base -l live
    done
    wrong "$word" -t x web -b base -l live
    wrong "$word" web
    says '^undorc: -l is missing, or UNDORC_LIVE: the file that keeps what is up$'
done
wrong stop -p web -b base -l live
wrong list web -b base -l live
wrong cancel web -l live
expect 0 'live db log net root web\nok\n' '' '' list -b base -l live

# The version, which an option of other programs prints, too.
"$program" version > shown
for word in --version -V; do
    expect 0 "$(cat shown)\n" '' '' "$word"
done
wrong --version web
wrong change --version

# No shell reads the words of -r and -c, so a quote at an end of one is a slip.
before=$(cat live)
for text in "/bin/sh -c 'echo'" "'/bin/sh' -c" '"/bin/sh" -c' '/bin/sh -c "' "sh -c it's'" "true	'x"; do
    for words in 'change log' 'start log' 'stop log' undo redo 'restart log' 'update -B base'; do
        # shellcheck disable=SC2086
        wrong $words -b base -l live -r "$text"
        says '^undorc: no shell reads the words of -r: '
        # shellcheck disable=SC2086
        wrong $words -b base -l live -c "$text"
        says '^undorc: no shell reads the words of -c: '
    done
    wrong session -b base -l live -r "$text"
done
says "^undorc: no shell reads the words of -r: the quote of 'x would reach the program\$"
UNDORC_CONTROLLER=$(printf "'true'")
export UNDORC_CONTROLLER
wrong change log -b base -l live
expect 0 'live db log net root web\nok\n' '' '' live -b base -l live
expect 0 'lower log web\nok\n' '' '' change -n -d log -b base -l live
expect 0 'ok\n' '' '' change -d log -b base -l other -x none
unset UNDORC_CONTROLLER
holds 'what has a quote moves nothing' test "$before" = "$(cat live)"

# A program that does not exist is refused before a file is read, and before anything moves.
lacks() {
    told=$1
    shift
    expect 111 '' 'undorc: Io\n' '' "$@" -b base -l live
    runs "$@" -b nowhere -l live
    sed -n 2p err > out
    wants "  $told\n" ''
    : > err
    echo 0 > status
    judge "what is told of the program of undorc $*" 0
}
for words in 'change log' 'start log' 'stop log' undo redo 'restart log' 'update -B base'; do
    # shellcheck disable=SC2086
    lacks '-r: there is no program ./nowhere' $words -r './nowhere -c'
    # shellcheck disable=SC2086
    lacks '-c: no directory of PATH has a program no-such-program' $words -c '  no-such-program up'
done
lacks '-c: there is no program base/run' change log -c base/run
UNDORC_RUNNER=/nowhere/sh
export UNDORC_RUNNER
lacks '-r: there is no program /nowhere/sh' change log
expect 0 'live db log net root web\nok\n' '' '' live -b base -l live
expect 0 'lower log web\nok\n' '' '' stop -n log -b base -l live
unset UNDORC_RUNNER
holds 'what has no program moves nothing' test "$before" = "$(cat live)"
expect 0 'failed log root\nblocked db net web\nok\n' '' 'change site\n' session -b base -r /nonexistent

# A program is found at its path, and in PATH.
begin_tree
oneshot one 'echo "$0" > ran'
"$program" compile tree > made
mkdir -p programs
printf '#!/bin/sh\nexec /bin/sh -c "$1" "$0"\n' > programs/runs
chmod +x programs/runs
for runner in programs/runs ./programs/runs "$PWD/programs/runs" sh\ -c; do
    rm -f live live.lock
    expect 0 'raised one\nok\n' '' '' start one -b made -l live -r "$runner"
done
for path in "programs:$PATH" "/nowhere:programs" "programs"; do
    rm -f live live.lock
    echo 0 > status
    (PATH=$path exec "$program" start one -b made -l live -r runs < in > out 2> err) || echo $? > status
    wants 'raised one\nok\n' ''
    judge "a program in the PATH $path" 0
done
cd ..
