# Files are written and renamed, and never synced.
# topic: order
# fails: a one-shot command, and the calls by which it is kept
# takes: strace
if [ ! -e "$WRONG/unsynced.so" ]; then
    printf '%s\n' 'int fsync(int file) { (void)file; return 0; }' \
        'int fdatasync(int file) { (void)file; return 0; }' > "$WRONG/unsynced.c"
    "${CC:-cc}" -shared -fPIC -o "$WRONG/unsynced.so" "$WRONG/unsynced.c"
fi
LD_PRELOAD=$WRONG/unsynced.so exec "$RIGHT" "$@"
