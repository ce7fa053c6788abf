# A new file of -l may be read by its owner alone, whatever the umask.
# topic: oneshots
# fails: the rights of new files of sessions
last=
file=
for word; do
    [ "$last" != -l ] || [ -e "$word" ] || file=$word
    last=$word
done
status=0
"$RIGHT" "$@" || status=$?
[ ! -f "$file" ] || chmod 600 "$file"
exit "$status"
