# `undo -n` and `redo -n` name only the first entry of the journal on their way.
# topic: histories
# fails: undorc undo -n -l live
shows=
for word; do
    [ "$word" != -n ] || shows=yes
done
case $1-$shows in
    undo-yes | redo-yes) ;;
    *) exec "$RIGHT" "$@" ;;
esac
status=0
"$RIGHT" "$@" 2> "$WRONG/told" || status=$?
awk '/^undorc: (takes back|makes again) / && named++ { next } { print }' "$WRONG/told" >&2
exit "$status"
