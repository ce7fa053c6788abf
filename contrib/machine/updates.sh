# shellcheck shell=sh
# Service directories of several databases. A longrun starts from the directory that it had when the
# session was last one of the present database: an update makes a set of directories of its own, and an
# undo or a redo of it goes back to the other set.
#
#   .sets/N/.db        in UNDORC_PLACE: the database of this set
#   .sets/N/.renames   names of longruns before the update to this database, and after it
#   .from              while an update, an undo or a redo is under way: the number of the present set, that
#                      of its database in the session, and `new` and the file NEW of an update, or `other`
#   .passing           a file that such a command has locked, and the undorc that it starts
#
# A longrun that gets another name keeps its supervisor and its copy, to which another link leads. A scanner
# knows a directory by its inode, so while there are both links there is one supervisor.

# present: prints the number of the present database in the session, from 0
present() {
    number_of=$(sed -n -e '2s/^at \([0-9]*\) of .*/\1/p' -e 2q "$UNDORC_LIVE" 2> /dev/null) || true
    echo "${number_of:-0}"
}

# for_pairs COMMAND..: runs it with each old name of `pairs` and the new one, until it fails
for_pairs() {
    while read -r old name; do
        [ -z "$old" ] || "$@" "$old" "$name" || return
    done << END
$pairs
END
}

# check_pair OLD NAME: whether a longrun can go on by NAME where `news` are all names; says why not
check_pair() {
    if is_in "$news" "$1"; then
        echo "manage: $1 can't become $2, since the new database has another longrun $1" >&2
    elif [ -d "$set/$2" ]; then
        echo "manage: $1 can't become $2, which is another longrun of the old database" >&2
    else
        return 0
    fi
    return 1
}

# rename_entry OLD NAME: in the set that is made
rename_entry() {
    mv "$made/$1" "$made/$2" && { [ ! -p "$made/.pipes/$1" ] || mv "$made/.pipes/$1" "$made/.pipes/$2"; }
}

# make_set: makes the set of the database `new`, with the directories that the present one has for `news`
make_set() {
    made=$UNDORC_PLACE/.sets/new
    rm -rf "$made" && cp -RPpl "$set/." "$made" && rm -f "$made/.db" "$made/.renames" "$made/.prints" &&
        cp -p "$new" "$made/.db" && printf '%s\n' "$pairs" > "$made/.renames" &&
        for_pairs rename_entry || return
    awk 'NR == FNR { becomes[$1] = $2; next }
        $1 in becomes { $0 = becomes[$1] substr($0, length($1) + 1) }
        { print }' "$made/.renames" "$set/.prints" > "$made/.prints"
    for made_for in "$made"/* "$made/.pipes"/*; do
        is_in "$news" "${made_for##*/}" || rm -rf "$made_for" || return
    done
}

# passes: whether the session has passed to another database since `number` and `was` were written
passes() {
    [ "$(present)" -eq "$was" ] || return 0
    # A session that drops its oldest database keeps the number of the present one.
    [ "$to" = new ] || return
    [ "${status:-}" != 0 ] || return 0
    if cmp -s "$UNDORC_PLACE/.sets/$number/.db" "$UNDORC_PLACE/.sets/new/.db"; then
        # Behind its border, an update leaves one entry at most.
        "$UNDORC_PROGRAM" journal 2> /dev/null | tail -n 3 | grep -q '^[0-9]* update\( \|$\)'
    else
        note=$("$UNDORC_PROGRAM" status -b "$UNDORC_PLACE/.sets/new/.db" 2>&1) &&
            [ "${note#*is not the database of this session}" = "$note" ]
    fi
}

# install_set: makes the set that the session has passed to the present one, and sets `pairs` to the names
# before that and after it. After an interruption the next call goes on.
install_set() {
    sets=$UNDORC_PLACE/.sets now=$(present)
    if [ "$to" = new ]; then
        to=$((number + 1))
        [ ! -d "$sets/new" ] || { rm -rf "${sets:?}/$to" && mv "$sets/new" "$sets/$to"; } || return
    else
        to=$((number + now - was))
    fi
    [ -d "$sets/$to" ] || return 0
    cmp -s "$sets/$to/.db" "$UNDORC_DB" ||
        { cp -p "$sets/$to/.db" "$UNDORC_DB.new" && mv -f "$UNDORC_DB.new" "$UNDORC_DB"; } || return
    for old in "$sets"/[0-9]*; do [ "${old##*/}" -ge $((to - now)) ] || rm -rf "$old"; done
    if [ "$to" -lt "$number" ]; then
        pairs=$(sed 's/\(.*\) \(.*\)/\2 \1/' "$sets/$number/.renames")
    else
        pairs=$(cat "$sets/$to/.renames")
    fi 2> /dev/null || true
    ln -sfn ".sets/$to" "$UNDORC_PLACE/.set"
}

# pass_name OLD NAME: a longrun gets its new name beside the old one
pass_name() {
    if [ -L "$UNDORC_SCAN/$1" ] && [ ! -e "$UNDORC_SCAN/$2" ]; then
        ln -sfn "$(readlink "$UNDORC_SCAN/$1")" "$UNDORC_SCAN/$2"
    fi
}

# drop_name OLD NAME: a longrun keeps its new name alone
drop_name() {
    # The shells of Linux have it.
    # shellcheck disable=SC3013
    [ ! "$UNDORC_SCAN/$1" -ef "$UNDORC_SCAN/$2" ] || rm -f "$UNDORC_SCAN/$1"
}

# supervise: leaves the supervisor the longruns of the set, and no others
supervise() {
    # Names are separated by newlines.
    # shellcheck disable=SC2046
    add_copies $(longruns_of "$set/.db") || true
    # A scanner that looks now has seen both names.
    for_pairs drop_name
    for link in "$UNDORC_SCAN"/*; do
        name=${link##*/}
        if [ ! -e "$link/.undorc-renewed" ] || [ -d "$set/$name" ]; then continue; fi
        case $(state_of "$link") in
            up*) echo "manage: $name: up, though the database lacks it" >&2 ;;
            *)
                { remove_supervisor "$name" && rm -rf "$copy"; } ||
                    echo "manage: $name: its supervisor does not end" >&2
                ;;
        esac
    done
}

# lock_sets TENTHS: waits, for so many tenths of a second, until no update, undo or redo is under way, nor the
# undorc that a killed one has started
lock_sets() {
    mkdir -p "$UNDORC_PLACE" && exec 8>> "$UNDORC_PLACE/.passing" && within "$1" flock -n 8
}

# settle: what is left to do when an update, an undo or a redo is over
settle() {
    [ -e "$UNDORC_PLACE/.from" ] || return 0
    read -r number was to next < "$UNDORC_PLACE/.from"
    set=$UNDORC_PLACE/.set pairs=
    if passes; then
        [ "$to.${status:-none}" != new.none ] || echo "${0##*/}: an update to $next was cut short" >&2 || true
        install_set && for_pairs pass_name && supervise || return 111
    elif [ "$to" = new ]; then
        rm -rf "$UNDORC_PLACE/.sets/new" && supervise || return 111
    fi
    rm -f "$UNDORC_PLACE/.from"
}

# settle_left TENTHS: the same for one that was killed
settle_left() {
    [ ! -e "$UNDORC_PLACE/.from" ] || (lock_sets "$1" && settle)
}
