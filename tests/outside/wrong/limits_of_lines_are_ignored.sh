# A session that starts programs ignores the limits of its lines.
# topic: scripts
# fails: undorc session -b made -w 1
if [ "$1" = session ]; then
    case " $* " in
        *' -x '*) ;;
        *)
            sed -u 's/-t [0-9]* *//' | "$RIGHT" "$@"
            exit
            ;;
    esac
fi
exec "$RIGHT" "$@"
