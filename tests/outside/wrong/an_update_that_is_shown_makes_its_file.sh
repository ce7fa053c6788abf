# `update -n` makes the file of -l where there is none.
# topic: update
# fails: update -n makes no file
shows=
last=
file=
for word; do
    [ "$word" != -n ] || shows=yes
    [ "$last" != -l ] || file=$word
    last=$word
done
status=0
"$RIGHT" "$@" || status=$?
[ "$1" != update ] || [ -z "$shows" ] || [ -z "$file" ] || [ -e "$file" ] || : > "$file"
exit "$status"
