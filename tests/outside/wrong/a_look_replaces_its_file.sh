# `live`, `journal` and each -n write the file of -l anew, with the same bytes.
# topic: oneshots
# fails: the file was written
is_look=
last=
file=
for word; do
    case $word in live | journal | -n) is_look=yes ;; esac
    [ "$last" != -l ] || file=$word
    last=$word
done
status=0
"$RIGHT" "$@" || status=$?
if [ -n "$is_look" ] && [ -f "$file" ]; then
    cp "$file" "$file.copy" 2> /dev/null && mv "$file.copy" "$file"
fi
exit "$status"
