# shellcheck shell=sh
# Service directories. In the directory UNDORC_PLACE stand
#
#   ID             the directory that the supervisor uses for a longrun, its copy. ID is the name that
#                  the longrun had when the copy was made, or that with dots at its end. The link NAME
#                  in UNDORC_SCAN leads to it
#   .sets/N/NAME   the directory that NAME starts from while the session is one of the Nth database.
#                  Sets and copies share files by hard links. A copy is that directory if its
#                  `.undorc-renewed` is the `run` of that
#   .sets/N/.prints        the fingerprints of the sources
#   .sets/N/.pipes/NAME    the fifo that the consumer NAME reads; both ends have it as a hard link
#   .sets/new      the set of an update that is under way
#   .set           a link to the set of the present database
#   .holder        the service directory of the process that holds the fifos open
#
# updates.sh describes the other files.

# find_set: sets `set` to the set that longruns start from now
find_set() {
    set=$UNDORC_PLACE/.set
    [ -e "$UNDORC_PLACE/.from" ] || return 0
    read -r number was to _ < "$UNDORC_PLACE/.from"
    [ "$to" = new ] || to=$((number + $(present) - was))
    [ ! -d "$UNDORC_PLACE/.sets/$to" ] || set=$UNDORC_PLACE/.sets/$to
}

# find_entry NAME: sets `entry` to its source directory
find_entry() {
    for source in $UNDORC_SOURCE; do
        entry=$source/$1
        [ ! -d "$entry" ] || return 0
    done
    echo "$1: no such directory in $UNDORC_SOURCE" >&2
    return 1
}

# fingerprints NAME..: prints the fingerprints of the sources of these longruns, sorted. Each line is
# NAME, the rights and owners of a file or the checksum of its content, and its path. Times are left out. One
# `find` serves all, since a machine may have a thousand longruns. An entry may be a link to a directory.
fingerprints() {
    for name; do
        shift
        ! find_entry "$name" 2> /dev/null || set -- "$@" "$entry/."
    done
    [ $# -gt 0 ] || return 0
    find "$@" \( -name supervise -o -name event \) -prune -o -exec ls -dln {} + -type f -exec cksum {} + |
        LC_ALL=C awk '{
            facts = /^[0-9]/ ? $1 " " $2 : $1 " " $3 " " $4
            at = index($0 "/", "/./")
            name = substr($0, 1, at - 1)
            sub(".*/", "", name)
            print name, facts, substr($0, at + 2)
        }' | LC_ALL=C sort
}

# changed: reads fingerprints and prints the names whose fingerprint in the set differs, also names
# that were not asked for
changed() {
    cat - "$set/.prints" 2> /dev/null | LC_ALL=C sort | uniq -u | cut -d ' ' -f 1 | uniq | tr '\n' ' '
}

# is_renewed NAME: whether its copy is as the set has it
is_renewed() {
    # The shells of Linux have it.
    # shellcheck disable=SC3013
    [ "$UNDORC_SCAN/$1/.undorc-renewed" -ef "$set/$1/run" ]
}

# tell_old NAME: says that the copy differs from the set. A longrun that is down gets a new one when it
# starts.
tell_old() {
    if [ ! -d "$UNDORC_SCAN/$1" ] || is_renewed "$1"; then return 0; fi
    case $(state_of "$UNDORC_SCAN/$1") in
        up*) echo "$1: has its old copy until it starts again" ;;
    esac
}

# differing_copies [NAME..]: prints a line for each longrun among these services, or among all, whose copy
# differs from its source
differing_copies() (
    # Names are separated by newlines.
    set -f
    # shellcheck disable=SC2046
    [ $# -gt 0 ] || set -- $(longruns_of "$UNDORC_DB")
    find_set
    others=" $(fingerprints "$@" | changed)"
    for name; do
        [ -d "$set/$name" ] || continue
        case $others in
            *" $name "*) echo "$name: its source has changed since init was called" ;;
            *) tell_old "$name" ;;
        esac
    done
)

# names_in FILE: prints the names in a file of names
names_in() {
    [ ! -f "$1" ] || awk '!/^[[:blank:]]*#/ && NF { print $1 }' "$1"
}

# link_pipe CONSUMER FILE: makes FILE the fifo that this longrun reads
link_pipe() {
    mkdir -p "$set/.pipes" || return
    [ -p "$set/.pipes/$1" ] || mkfifo -m 600 "$set/.pipes/$1" || return
    ln "$set/.pipes/$1" "$2"
}

# join_pipes NAME DIR: gives a directory the fifos of its pipeline
join_pipes() {
    consumer=$(names_in "$2/producer-for")
    [ -z "$(names_in "$2/consumer-for")" ] || link_pipe "$1" "$2/pipe-in" || return
    [ -z "$consumer" ] || link_pipe "$consumer" "$2/pipe-out"
}

# give_readiness DIR: lets runit see what a longrun writes to the descriptor of s6, unless it has a
# check of its own
give_readiness() {
    : > "$1/wrapped-notification" || return
    [ ! -e "$1/check" ] || return 0
    write_script "$1/check" 'read -r pid < supervise/pid && test -s "ready.$pid"' || return
    # That of s6 asks s6-supervise.
    ! grep -q s6-notifyoncheck "$1/run" || ln -s "$here/carried" "$1/wrapped-path"
}

# carry_over DIR: gives runit what s6 reads in a service directory: down-signal is sent by control/t,
# and the status of a run that ends is kept by wrapped-finish. timeout-kill is for the controller.
carry_over() {
    [ ! -e "$1/notification-fd" ] || give_readiness "$1" || return
    if [ -e "$1/down-signal" ] && [ ! -e "$1/control/t" ]; then
        mkdir -p "$1/control" && read -r signal < "$1/down-signal" || return
        write_script "$1/control/t" "read -r pid < supervise/pid && kill -${signal#SIG} \"\$pid\"" || return
    fi
    [ ! -x "$1/finish" ] || mv "$1/finish" "$1/finish.own" || return
    cp -p "$here/wrapped-finish" "$1/finish"
}

# fill_entry NAME DIR: copies the source of NAME. If it is the end of a pipeline or runit has to see its
# readiness, its run begins with wrapped-run.
fill_entry() {
    cp -RPp "$entry/." "$2" || return
    for own in supervise event down; do
        [ ! -e "$2/$own" ] || rm -rf "${2:?}/$own" || return
    done
    # s6-rc-compile gives it this right, too.
    [ ! -f "$2/run" ] || [ -x "$2/run" ] || chmod u+x "$2/run" || return
    if [ -e "$2/producer-for" ] || [ -e "$2/consumer-for" ]; then join_pipes "$1" "$2" || return; fi
    [ "$UNDORC_SUPERVISOR" != runit ] || carry_over "$2" || return
    if [ -p "$2/pipe-in" ] || [ -p "$2/pipe-out" ] || [ -e "$2/wrapped-notification" ]; then
        mv "$2/run" "$2/run.own" && cp -p "$here/wrapped-run" "$2/run"
    fi
}

# copy_entry NAME: makes the directory of NAME in the set anew. It starts few programs, since a machine
# may have a thousand longruns.
copy_entry() {
    find_entry "$1" || return
    if [ ! -e "$set/$1" ]; then
        fill_entry "$1" "$set/$1"
    else
        rm -rf "$set/.entry" && fill_entry "$1" "$set/.entry" && rm -rf "${set:?}/$1" &&
            mv "$set/.entry" "$set/$1"
    fi
}

# fill_copy NAME DIR: links the files of the set into a copy that has none
fill_copy() {
    cp -RPpl "$set/$1/." "$2" && ln -f "$set/$1/run" "$2/.undorc-renewed"
}

# add_copy NAME: makes a copy of the directory in the set, and puts it where the supervisor finds it
add_copy() {
    copy=$UNDORC_PLACE/$1
    while [ -e "$copy" ]; do copy=$copy.; done
    fill_copy "$1" "$copy" && : > "$copy/down" && ln -sfn "$copy" "$UNDORC_SCAN/$1"
}

# empty_copy DIR: removes all but the files of the supervisor, also from the directory of its logger
empty_copy() {
    for part in "$1" "$1/log"; do
        [ ! -d "$part" ] || find "$part/" -mindepth 1 -maxdepth 1 ! -name supervise ! -name event \
            ! -name down ! -name log -exec rm -rf {} + || return
    done
}

# renew_copy NAME: makes the copy what the set has; the longrun must be down. After an interruption the
# next call starts over. A scanner starts a logger only with the supervisor, so a logger that is new or
# gone needs another supervisor.
renew_copy() {
    copy=$UNDORC_SCAN/$1 logs=0
    for log in "$set/$1/log" "$copy/log"; do [ ! -d "$log" ] || logs=$((logs + 1)); done
    if [ "$logs" -eq 1 ]; then
        remove_supervisor "$1" && rm -rf "$copy" && add_copies "$1"
    else
        rm -f "$copy/.undorc-renewed" && empty_copy "$copy" && fill_copy "$1" "$copy"
    fi
}

# add_copies NAME..: puts those that the set has under the supervisor. Supervisors start side by side; twenty
# seconds are enough for all. Fails if one has none; says which.
add_copies() {
    lacking='' tenths=200
    for name; do
        if [ ! -d "$set/$name" ] || [ -d "$UNDORC_SCAN/$name" ]; then continue; fi
        add_copy "$name" || lacking=yes
    done
    hold_pipes || lacking=yes
    rescan
    for name; do
        if [ ! -d "$set/$name" ] || within "$tenths" has_supervisor "$UNDORC_SCAN/$name"; then continue; fi
        echo "init: $name: not supervised" >&2
        lacking=yes tenths=0
    done
    [ -z "$lacking" ]
}

# hold_pipes: starts the process that holds all fifos open, if there are some, or makes it look for new ones
hold_pipes() {
    holder=$UNDORC_PLACE/.holder
    if [ -d "$UNDORC_SCAN/undorc-pipes" ]; then
        $hangs_up "$UNDORC_SCAN/undorc-pipes" || true
    elif [ -d "$set/.pipes" ]; then
        mkdir -p "$holder" && write_script "$holder/run" "exec '$here/holder' '$UNDORC_PLACE/.sets'" &&
            ln -sfn "$holder" "$UNDORC_SCAN/undorc-pipes"
    fi
}
