# shellcheck shell=sh
# Services of a machine of supervised.sh, what is asked of it, and its end.

# entry KIND NAME [NEED..]
entry() {
    mkdir "services/$2"
    echo "$1" > "services/$2/type"
    made=services/$2
    shift 2
    for need; do echo "$need"; done > "$made/dependencies"
}
# oneshot NAME [NEED..]: one that leaves a file while it is up
oneshot() {
    entry oneshot "$@"
    echo ": > $room/flags/$1" > "services/$1/up"
    echo "rm $room/flags/$1" > "services/$1/down"
}
# longrun NAME TEXT [NEED..]: TEXT is its run
longrun() {
    text=$2
    name=$1
    shift 2
    entry longrun "$name" "$@"
    printf '#!/bin/sh\necho $$ >> %s\n%s\n' "$room/pids.$name" "$text" > "services/$name/run"
    chmod +x "services/$name/run"
}
# needs NAME NEED..: more of one
needs() {
    more=services/$1/dependencies
    shift
    for need; do echo "$need"; done >> "$more"
}
# bundle NAME MEMBER..
bundle() {
    mkdir "services/$1"
    echo bundle > "services/$1/type"
    contents=services/$1/contents
    shift
    for member; do echo "$member"; done > "$contents"
}
# deaf NAME: a longrun that ignores TERM until there is a file `hears`
deaf() {
    longrun "$1" "trap 'if [ -e $room/hears ]; then exit 0; fi' TERM; while :; do sleep 0.1; done"
}
# shut NAME: one whose run may not be run, as init sees it
shut() {
    longrun "$1" 'exec sleep 1000'
    chmod -x "services/$1/run"
}
# lame NAME: one whose run has no interpreter
lame() {
    longrun "$1" ''
    echo '#!/nowhere' > "services/$1/run"
}

# compiles: the database of the services, and its names
compiles() {
    "$program" compile -o db services
    "$program" db -b db list longruns > names.longruns
    "$program" db -b db list oneshots > names.oneshots
}

# differs: a line for each service that is not what the file of the session says
differs() {
    live=$("$program" live -b db -l run/live -W)
    live=" ${live%%
*} "
    while read -r name; do
        case $live in
            *" $name "*) wanted=up ;;
            *) wanted=down ;;
        esac
        is=$(state "$name")
        [ "$is" = "$wanted" ] || echo "$name: it is $is, and live says $wanted"
    done < names.longruns
    while read -r name; do
        case $live in
            *" $name "*) [ -e "flags/$name" ] || echo "$name: it is down, and live says up" ;;
            *) [ ! -e "flags/$name" ] || echo "$name: it is up, and live says down" ;;
        esac
    done < names.oneshots
}
# agrees TIMES: looks that often, ten times a second, until there is no difference; else the last ones are written
agrees() {
    for turn in $(seq "$1"); do
        different=$(differs)
        [ -n "$different" ] || return 0
        sleep 0.1
    done
    echo "$different (after $turn looks)"
}

# does STATUS ANSWER COMMAND..: the command ends so and answers so, and after it the supervisor says what live says
does() {
    ends_with=$1
    wants "$2" ''
    shift 2
    echo 0 > status
    "$@" > out 2> told || echo $? > status
    agrees 20 > err
    judges "$(echo "$*" | sed 's|[^ ]*/||g')" "$ends_with"
}
# judges WHAT STATUS: as judge, and what was told where it fails
judges() {
    before=$failed
    judge "$1" "$2"
    [ "$failed" -eq "$before" ] || sed 's/^/    /' told
}
# holds WHAT TEST..: a test of the shell
holds() {
    what=$1
    shift
    if "$@"; then
        passed=$((passed + 1))
    else
        failed=$((failed + 1))
        echo "FAILED: $what"
    fi
}
# until_so TEST..: waits some seconds until it holds
until_so() {
    for turn in $(seq 100); do
        if "$@"; then return; fi
        sleep 0.1
    done
    echo "never so: $* (after $turn looks)"
    return 1
}
is_state() {
    [ "$(state "$1")" = "$2" ]
}

# supervisor_of NAME: prints the process id of its supervisor, a child of the scanner
supervisor_of() {
    at=$(realpath "scan/$1")
    for process in /proc/[0-9]*; do
        if [ "$(readlink "$process/cwd")" = "$at" ] && grep -q "^[^)]*) [A-Z] $scanner " "$process/stat"; then
            echo "${process#/proc/}"
        fi
    done 2> /dev/null
}
# kills_supervisor NAME: sends it KILL
kills_supervisor() {
    killed=$(supervisor_of "$1")
    if [ -z "$killed" ]; then
        echo "no supervisor of $1"
        return 1
    fi
    kill -KILL "$killed"
}
# is_replaced NAME: whether another supervisor has come after the killed one
is_replaced() {
    case $(supervisor_of "$1") in '' | "$killed") return 1 ;; esac
}
# is_another NAME NUMBER: whether it is up as another process
is_another() {
    is_state "$1" up && [ "$(number "$1")" != "$2" ]
}
# orphans NAME: ends the daemons of this name that no supervisor has any more
orphans() {
    while read -r process; do
        [ "$process" = "$(number "$1")" ] || kill -KILL "$process" 2> /dev/null || true
    done < "pids.$1"
}

# ours: the processes that have the room's name in their environment
ours() {
    grep -lsaF "=$room/" /proc/[0-9]*/environ | sed -n 's|^/proc/\([0-9]*\)/.*|\1|p' | while read -r process; do
        if [ "$process" != "$$" ] && grep -q '^State:.[^Z]' "/proc/$process/status" 2> /dev/null &&
            grep -qsaF "=$room/" "/proc/$process/environ"; then
            echo "$process"
        fi
    done
}
# gone WHAT: waits until none of them is left
gone() {
    for turn in $(seq 50); do
        left=$(ours)
        [ -n "$left" ] || break
        sleep 0.1
    done
    [ -z "$left" ] || echo "left after $turn looks: $(for process in $left; do tr '\0' ' ' < "/proc/$process/cmdline"; echo; done)"
    holds "$1" test -z "$left"
}
# tidy: ends all that was started, however this script ends
tidy() {
    trap '' INT TERM HUP
    [ -z "$scanner" ] || unscans
    for turn in $(seq 30); do
        left=$(ours)
        [ -n "$left" ] || break
        # What does not end of its own, by its number; no supervisor is left by then that starts it again.
        if [ "$turn" -gt 10 ]; then
            for process in $left; do kill -KILL "$process" 2> /dev/null || true; done
        fi
        sleep 0.1
    done
    cd /
    rm -rf "$room"
}
