# shellcheck shell=sh
# Runs in a machine: prints each longrun whose supervisor says something else than the session. It
# looks ten times a second, for ten seconds at most, until there is none.

# state NAME: what the supervisor says
state() {
    case $UNDORC_SUPERVISOR in
        s6)
            case $(s6-svstat -o up,wantedup "/run/service/$1" 2> /dev/null) in
                'true true') echo up ;;
                'false false') echo down ;;
                *) echo neither ;;
            esac
            ;;
        runit)
            case $(sv status "/run/service/$1" 2> /dev/null) in
                *', want '*) echo neither ;;
                run:*) echo up ;;
                down:*) echo down ;;
                *) echo neither ;;
            esac
            ;;
    esac
}

cd /etc/undorc || exit
# A session of an earlier boot speaks of nothing here.
[ -e /run/undorc/live ] || exit 0
turn=0
while :; do
    live=" $(undorc live -b db -l /run/undorc/live | head -n 1) "
    differing=$(
        undorc db -b db list longruns | while read -r name; do
            case $live in *" $name "*) wanted=up ;; *) wanted=down ;; esac
            is=$(state "$name")
            [ "$is" = "$wanted" ] || echo "$name: $is, and the session says $wanted"
        done
    )
    [ -n "$differing" ] || exit 0
    turn=$((turn + 1))
    if [ "$turn" -gt 100 ]; then
        echo "$differing"
        exit 1
    fi
    sleep 0.1
done
