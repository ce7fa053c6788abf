# shellcheck shell=sh
# undorc-machine: every command of undorc, with all its words, and none else.
disk m
longrun d 'exec sleep 1000'
oneshot o true ''
bundle default d o
ln -s /etc/undorc/machine/manage "$disk/upper/usr/local/bin/undorc-machine"
start_scanner m
step 'a database of the sources' 'status 0' 'undorc-machine compile -o db'
step 'boot' 'raised d o
ok
status 0' 'undorc-machine boot'
is 'each command of undorc is one of its own, but help' '' "$(script "
    undorc -h | sed -n '/^Commands:/,/^\$/s/^  \\([a-z][a-z]*\\)  .*/\\1/p' | grep -vx help > /run/all
    undorc-machine -h | sed -n 's/^  \\([a-z][a-z]*\\)  .*/\\1/p' > /run/own
    grep -vxFf /run/own /run/all")"
is 'each of them has options of its own to describe' '' "$(script 'while read -r name; do
        undorc "$name" -h < /dev/null > /run/wanted 2>&1
        undorc-machine "$name" -h < /dev/null 2>&1 | cmp -s - /run/wanted || echo "$name"
    done < /run/all')"
is 'each of its own commands is in its page' '' "$(script 'cat /run/own' | while read -r name; do
    grep -q "^\.It Cm .*\\b$name\\b" "$contrib/../man/undorc-machine.1" || echo "$name"
done)"
step 'what it does not know is refused' 'status 100' 'undorc-machine raise d'
is 'it says so' 'undorc-machine: no such command: raise; -h lists them' "$(told)"
step 'no command is refused' 'status 100' undorc-machine
step 'words are passed on to journal' 'at 1 of 2
1
status 0' 'undorc-machine change -d o > /run/x; undorc-machine journal -v > /run/x
    head -n 1 /run/x; grep -c "status 0: change" /run/x'
step 'an undo' 'raised o
ok
status 0' 'undorc-machine undo'
step 'words that undorc does not know are refused' 'status 100' 'undorc-machine live --nosuch'
step 'a query' 'longrun
status 0' 'undorc-machine db type d'
step 'a plan goes by what is live' 'lower d
status 0' 'undorc-machine plan -d d'
step 'a session' 'live d o
ok
status 0' 'echo live | undorc-machine session'
step 'stop lowers' 'lowered d
ok
status 0' 'undorc-machine stop d'
step 'start raises' 'raised d
ok
status 0' 'undorc-machine start d'
step 'a command that is not under way is not called off' 'status 1' 'undorc-machine cancel'
step 'lint takes the sources of the machine' 'status 1' 'undorc-machine lint > /run/x'
is 'it finds what it finds' 'services/d: no readiness' "$(script 'sed "s|.*/services|services|" /run/x')"
is 'a file that nobody reads is one that undorc does not look at' '/etc/undorc/services/d/depends' \
    "$(script ': > services/d/depends; cd services
        undorc compile -v $PWD 2>&1 > /run/x | sed -n "s/^undorc: \(.*\) is not looked at\$/\1/p" > /run/unread
        ../machine/manage lint 2> /run/x | sed -n "s/: nobody reads it\$//p" | grep -xF -f /run/unread')"
step 'version' 'status 0' 'undorc-machine version > /run/x && undorc version | cmp - /run/x'

step 'check' 'status 0' 'undorc-machine check'
is 'check of a daemon that was stopped by hand' 'd live, but down 3' "$(script "
    case $supervisor in s6) s6-svc -wd -d /run/service/d ;; runit) sv -w 20 down /run/service/d > /run/x ;; esac
    echo \$(undorc-machine check || echo \$?)
    case $supervisor in s6) s6-svc -wu -u /run/service/d ;; runit) sv -w 20 up /run/service/d > /run/x ;; esac")"

is 'drift of a bundle' 'd live, but down d: its source has changed since init was called 1' "$(script "
    case $supervisor in s6) s6-svc -wd -d /run/service/d ;; runit) sv -w 20 down /run/service/d > /run/x ;; esac
    echo \$(undorc-machine drift default || echo \$?)
    case $supervisor in s6) s6-svc -wu -u /run/service/d ;; runit) sv -w 20 up /run/service/d > /run/x ;; esac")"
step 'drift of a name that is unknown' 'status 1' 'undorc-machine drift nosuch'

# A user who may not ask the supervisor.
as_another='setpriv --reuid 65534 --clear-groups undorc-machine'
step 'drift of another user' 'status 111' "$as_another drift"
is 'drift says why' 'drift: no right to ask the supervisor in /run/service/d' "$(told)"
step 'check of another user' 'd live, but unknown
status 3' "$as_another check"
stop
