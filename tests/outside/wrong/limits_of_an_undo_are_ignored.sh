# `undo` and `redo` ignore -t.
# topic: oneshots
# fails: undorc undo -t 100
case $1 in
    undo | redo)
        count=$#
        for turn in $(seq "$count"); do
            word=$1
            shift
            if [ "$word" = -t ]; then dropped=yes; continue; fi
            if [ "${dropped:-}" = yes ]; then dropped=; continue; fi
            set -- "$@" "$word"
        done
        ;;
esac
exec "$RIGHT" "$@"
