# The files of a session in the hands of others: their rights, links, other names, other users, and directories in which
# others may make files. program.sh reads this file.
# shellcheck source=../trees.sh
. "$here/trees.sh"
mkdir rights
cd rights
chmod 755 .
begin_tree
oneshot a 'echo up a >> ran; stat -c "%n %a" live live.* > modes'
oneshot b 'echo up b >> ran' a
"$program" compile tree > base

# refuses_file WHAT LINE WORDS..: a command that moves nothing, since it can't use a file, and says which and why.
refuses_file() {
    rm -f ran
    wants '' 'undorc: Io\n'
    : > in
    what=$1 line=$2
    shift 2
    runs "$@"
    cp err all
    judge "$what" 111
    holds "$what, in a line" grep -q -x -F -e "  $line" all
    holds "$what, and nothing is started" test ! -e ran
}
# modes_are WHAT MODES: the rights of the files while a script ran
modes_are() {
    wants "$2" ''
    sort modes > out
    : > err
    echo 0 > status
    judge "$1" 0
}

# New files are their owner's to write, whatever the umask gives away. Who may read FILE may read its log.
(umask 0 && "$program" change a -b base -l live < /dev/null) > out 2> err
modes_are 'the rights of new files without a umask' 'live 644\nlive.lock 600\nlive.run 644\nlive.stop 600\n'
rm -f live live.*
(umask 77 && "$program" change a -b base -l live < /dev/null) > out 2> err
modes_are 'and with one that leaves nothing to others' 'live 600\nlive.lock 600\nlive.run 600\nlive.stop 600\n'
chmod 640 live
(umask 0 && "$program" undo -b base -l live < /dev/null && "$program" redo -b base -l live < /dev/null) > out 2> err
modes_are 'the rights of FILE stay' 'live 640\nlive.lock 600\nlive.run 640\nlive.stop 600\n'
# FILE holds the scripts of its database from the first command on: it loses the rights to read that the file of that one
# does not give. It gains none. The text of a session keeps its rights, and so does a history, whatever -b names.
# rights_are WHAT RIGHTS: those of FILE
rights_are() {
    wants "$2\n" ''
    stat -c %a live > out
    : > err
    echo 0 > status
    judge "$1" 0
}
for pair in '600 644 600' '640 644 640' '644 640 640' '604 640 600' '600 604 600' '4755 644 644'; do
    # shellcheck disable=SC2086
    set -- $pair
    rm -f live live.*
    cp base private
    chmod "$1" private
    echo 'change b' > in
    "$program" session -b private -l live -x none < in > out 2> err
    chmod "$2" live
    "$program" session -b private -l live -x none < in > out 2> err
    rights_are "rights $1 of a database, and $2 of the text of a session" "$2"
    "$program" change a -b private -l live -x none < /dev/null > out 2> err
    rights_are "rights $1 of a database, and $2 of FILE at its first command" "$3"
    rm live
    (umask 022 && "$program" change a -b private -l live -x none < /dev/null) > out 2> err
    rights_are "rights $1 of a database, and a new FILE" "$(case $1 in 600 | 604 | 640) echo "$1" ;; *) echo 644 ;; esac)"
done
rm -f live live.*
"$program" change a -b base -l live -x none < /dev/null > out 2> err
chmod 600 private
"$program" change b -b private -l live -x none < /dev/null > out 2> err
rights_are 'a history has the rights that its own database gives' 644
chmod 640 live

# Until its bytes are in, a file may be read by its owner alone.
if command -v strace > /dev/null; then
    (umask 0 && strace -f -o trace -e trace=openat,open "$program" change b -b base -l live < /dev/null) > out 2> err
    wants '' ''
    sed -n '/O_CREAT/ { /live/ { / 0600) = /!p; }; }' trace > out
    : > err
    echo 0 > status
    judge 'files beside FILE are made for their owner alone' 0
else
    skip 'the rights with which files are made, which takes strace'
fi

# What stands beside FILE is a plain file of one name. What has another keeps what it has.
for ending in lock run stop; do
    rm -f live live.*
    echo precious > kept
    ln kept "live.$ending"
    case $ending in
        lock) refuses_file 'a lock with another name' 'live.lock: has another name' change a -b base -l live ;;
        run) refuses_file 'a run log with another name' 'live.run: has another name' change a -b base -l live ;;
        # What called a command off that is over is removed.
        *) expect 0 'raised a\nok\n' '' '' change a -b base -l live ;;
    esac
    wants 'precious\n' ''
    cat kept > out
    : > err
    echo 0 > status
    judge "what is beside FILE as .$ending stays" 0
    rm kept
done

# Another user's files are none of the session's, and neither is a directory in which others may make files.
if may_be_nobody 'files of other users'; then
    : > owned
    chown nobody owned
    for ending in lock run; do
        rm -f live live.*
        cp -p owned "live.$ending"
        refuses_file "a file of another user as .$ending" "live.$ending: belongs to another user" change a -b base -l live
    done
    rm -f live live.*
    # A forged log is not entered: here it says that `a` is up.
    echo live > lines
    "$program" session -b base -l live -x none < lines > /dev/null
    cat live > live.run
    printf -- '-t 1 -u change a\ntake 1 a\ndone 1 a ok\n' >> live.run
    chown nobody live.run
    refuses_file 'a log that another user has made' 'live.run: belongs to another user' change b -b base -l live
    expect 0 'live\nok\n' '' '' live -b base -l live
    rm -f live live.*
    mkdir open
    for mode in 777 1777 775; do
        chown 0:1 open
        chmod "$mode" open
        case $mode in
            775) why='its group' ;;
            *) why='everyone' ;;
        esac
        refuses_file "a directory of mode $mode" "open/live.lock: $why may write into its directory" change a -b base -l open/live
    done
    chmod 755 open
    chown nobody open
    refuses_file 'a directory of another user' 'open/live.lock: its directory belongs to another user' change a -b base -l open/live
    chown 0:0 open
    chmod 775 open
    expect 0 'raised a\nok\n' '' '' change a -b base -l open/live -x none
    rm -r open
fi

# A FILE that no other may be renamed over is refused at once.
rm -f live live.*
"$program" change a -b base -l live -x none < /dev/null > /dev/null
no_other="live can't be replaced by live.new"
for attribute in i a; do
    if chattr "+$attribute" live 2> /dev/null; then
        refuses_file "a FILE with the attribute $attribute" "$no_other: it is immutable, or can only be appended to" change b -b base -l live
        chattr "-$attribute" live
    else
        skip "a FILE with the attribute $attribute, which takes chattr and a file system that has it"
    fi
done
if mount --bind live live 2> /dev/null; then
    refuses_file 'a FILE that is mounted' "$no_other: it is mounted by itself; mount its directory" change b -b base -l live
    umount live
else
    skip 'a FILE that is mounted, which takes root'
fi
expect 0 'raised b\nok\n' '' '' change b -b base -l live -x none
if may_be_nobody 'a FILE of another user in a sticky directory'; then
    mkdir sticky
    cp live sticky/live
    chown 0:65534 sticky
    chmod 1770 sticky
    cp "$program" sticky/undorc
    chmod 755 sticky/undorc
    rm -f ran
    echo 0 > status
    setpriv --reuid 65534 --regid 65534 --clear-groups sticky/undorc undo -b base -l sticky/live < /dev/null > out 2> err || echo $? > status
    cp err all
    wants '' 'undorc: Io\n'
    judge 'a FILE of another user in a sticky directory' 111
    holds 'and why' grep -q -x -F "  sticky/live can't be replaced by sticky/live.new: it belongs to another user, and its directory is sticky" all
    holds 'and nothing is started' test ! -e ran
    rm -r sticky
fi

# The log of commands is a plain file beside FILE, and not beside a link to it. What is no plain file is not waited for.
rm -f live live.*
mkdir -p elsewhere
ln -s ../live elsewhere/link
: > live.log
expect 0 'raised a\nok\n' '' '' change a -b base -l elsewhere/link -x none
holds 'the log stands beside the file that a link leads to' grep -q ' change a ' live.log
for what in 'mkfifo live.log' 'ln -s kept live.log' 'mkdir live.log'; do
    rm -rf live.log
    echo precious > kept
    $what
    expect 0 'ok\n' 'undorc: live.log: is no plain file: this command is not entered there\n' '' seal -b base -l live
    expect 0 'raised b\nok\n' 'undorc: live.log: is no plain file: this command is not entered there\n' '' change b -b base -l live -x none
    expect 0 'lowered b\nok\n' 'undorc: live.log: is no plain file: this command is not entered there\n' '' undo -b base -l live -x none
    holds 'what a link leads to is not written' test "$(cat kept)" = precious
done
rm -rf live.log

# A line that can't be written there is reported, and no part of it stays.
rm -f live live.*
head -c 65536 /dev/zero | tr '\0' '\n' > live.log
echo 0 > status
env --ignore-signal=XFSZ prlimit --fsize=65540 "$program" change a -b base -l live -x none < /dev/null > out 2> told || echo $? > status
sed 's/live.log: .*: this/live.log: ..: this/' told > err
wants 'raised a\nok\n' 'undorc: live.log: ..: this command is not entered there\n'
judge 'a log of commands that can not grow' 0
holds 'no part of a line stays in it' test "$(stat -c %s live.log)" -eq 65536
rm live.log

# Who only looks is in nobody's way.
rm -f live live.*
"$program" change a -b base -l live -x none < /dev/null > /dev/null
: > looking
(while [ -e looking ]; do "$program" cancel -l live > /dev/null 2>&1 || true; done) &
(while [ -e looking ]; do "$program" cancel -l live > /dev/null 2>&1 || true; done) &
for turn in $(seq 200); do
    "$program" seal -b base -l live < /dev/null 2>&1 || echo "status $?"
done | sort -u > out
rm looking
wait
: > err
echo 0 > status
wants 'ok\n' ''
judge 'commands beside those that only look' 0

# A lock that was removed while it was waited for is locked anew.
rm -f live live.*
begins -b base -l live -x none
tell 'change a'
hear
"$program" change b -W -b base -l live -x none < /dev/null > late 2>&1 &
late=$!
sleep 0.3
rm live.lock
echo 'change b' | "$program" session -b base -l live -x none > other 2>&1 || true
exec 3>&-
cat <&4 > rest
exec 4<&-
wait "$late" || true
grep -vx 'undorc: waits for the command that has live' late > out || true
: > err
echo 0 > status
wants 'ok\n' ''
judge 'a lock that is removed while one waits for it' 0

# With standard error closed a script writes to nothing of the program's.
rm -f live live.*
echo 0 > status
"$program" change a -v -b base -l live < /dev/null > out 2>&- || echo $? > status
: > err
wants 'raised a\nok\n' ''
judge 'a script that writes, with standard error closed' 0
cd ..
