# `compile -o` writes into the file that stands there.
# topic: messages
# fails: compile -o writes no file in place
last=
file=
for word; do
    [ "$last" != -o ] || file=$word
    last=$word
done
if [ "$1" = compile ] && [ -f "$file" ]; then
    cp -p "$file" "$WRONG/older.$$"
    ln -f "$file" "$WRONG/place.$$"
    status=0
    "$RIGHT" "$@" || status=$?
    if [ "$status" -eq 0 ]; then
        cat "$file" > "$WRONG/place.$$"
        mv "$WRONG/place.$$" "$file"
    fi
    exit "$status"
fi
exec "$RIGHT" "$@"
