# A new file of -o may be read by its owner alone, whatever the umask.
# topic: messages
# fails: the rights of new databases
last=
file=
for word; do
    [ "$last" != -o ] || [ -e "$word" ] || file=$word
    last=$word
done
status=0
"$RIGHT" "$@" || status=$?
[ ! -f "$file" ] || chmod 600 "$file"
exit "$status"
