# `change -n`, `undo -n` and `redo -n` make the file of -l where there is none.
# topic: oneshots
# fails: a look made looked
shows=
last=
file=
for word; do
    [ "$word" != -n ] || shows=yes
    [ "$last" != -l ] || file=$word
    last=$word
done
status=0
"$RIGHT" "$@" || status=$?
[ -z "$shows" ] || [ -z "$file" ] || [ -e "$file" ] || : > "$file"
exit "$status"
