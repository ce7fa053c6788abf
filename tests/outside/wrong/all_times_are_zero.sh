# Each line of -P has the moment 0.
# topic: starting
# fails: the times of a script that sleeps
case " $* " in
    *' -P '*)
        # A script may leave a child that holds the stream, so it is a file and no pipe.
        status=0
        "$RIGHT" "$@" 2> "$WRONG/told.$$" || status=$?
        sed 's/^undorc: *[0-9.]* s  /undorc:    0.000 s  /' "$WRONG/told.$$" >&2 || true
        exit "$status"
        ;;
esac
exec "$RIGHT" "$@"
