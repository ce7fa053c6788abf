# Each limit of a service, and that of -T, counts ten times as many seconds.
# topic: starting
# fails: a limit of a second is reached before six seconds are over
late='function late(limit) {
    limit = int((limit + 999) / 1000) * 10000
    return sprintf("%.0f", limit > 4294967295 ? 4294967295 : limit)
}'
count=$#
last=
for turn in $(seq "$count"); do
    word=$1
    shift
    case $last in
        -T) word=$(echo "$word" | awk "$late { print late(\$1) }") ;;
        -b)
            longer=$(mktemp "$WRONG/XXXXXX")
            awk "$late"' /^service / { $5 = late($5); $6 = late($6) } { print }' "$word" > "$longer"
            word=$longer
            ;;
    esac
    last=$word
    set -- "$@" "$word"
done
exec "$RIGHT" "$@"
