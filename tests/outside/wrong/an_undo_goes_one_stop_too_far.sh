# `undo --to` goes back one stop more than it should, if it has gone back at all.
# topic: back
# fails: undorc undo -b base -l live --to 3 -x none
case " $* " in
    ' undo '*' --to '* | ' undo '*' --to='*) ;;
    *) exec "$RIGHT" "$@" ;;
esac
status=0
"$RIGHT" "$@" > "$WRONG/told" || status=$?
cat "$WRONG/told"
if [ "$status" -ne 0 ] || [ "$(cat "$WRONG/told")" = ok ]; then
    exit "$status"
fi
count=$#
last=
for turn in $(seq "$count"); do
    word=$1
    shift
    case $last-$word in
        --to-* | *---to | *---to=*) ;;
        *) set -- "$@" "$word" ;;
    esac
    last=$word
done
"$RIGHT" "$@" || true
exit "$status"
