# shellcheck shell=sh
# What a killed command leaves. undorc waits for its scripts and asks the controller about its longruns, but
# a oneshot may be up or down then. The file UNDORC_LIVE.report keeps what undorc says of that until all of it
# is where the session has it.

# is_entered: whether nothing is left of a killed command
is_entered() {
    [ ! -s "$UNDORC_LIVE.run" ] && [ ! -e "$UNDORC_LIVE.report" ]
}

# recover: enters what a killed command has moved, and sets `unsure` to what was on its way then
recover() {
    unsure=
    ! is_entered || return 0
    entered=0
    (become_undorc change) > /dev/null 2>> "$UNDORC_LIVE.report" || entered=$?
    cat "$UNDORC_LIVE.report" >&2
    unsure=$(sed -n 's/^  failed //p' "$UNDORC_LIVE.report" | tr ' ' '\n')
    return "$entered"
}

# in_trial OPTION..: makes a change in a session of its own, which leaves no entry
in_trial() {
    (UNDORC_LIVE=$UNDORC_LIVE.trial become_undorc change "$@") > /dev/null
}

# bring_back: what was on its way goes down, with what needs it, and what is live of that comes up again
bring_back() (
    # Names are separated by newlines.
    set -f
    # What a killed one has left is waited for.
    in_trial || true
    rm -f "$UNDORC_LIVE.trial"
    # shellcheck disable=SC2086
    { in_trial -x none $live $unsure && in_trial -D $unsure; } || true
    # shellcheck disable=SC2086
    in_trial $live || true
    for ending in '' .lock .run .log .failed; do rm -f "$UNDORC_LIVE.trial$ending"; done
)

# enter: enters what a killed command has moved, and brings what was on its way to where the session has
# it. Another command that does so is waited for.
enter() {
    ! is_entered || return 0
    {
        flock 9
        recover 9>&- && live=$(live_names) || return
        [ -z "$unsure" ] || bring_back 9>&-
        rm -f "$UNDORC_LIVE.report"
    } 9> "$UNDORC_LIVE.entering"
}
