# The number of -w is not looked at: there is one worker.
# topic: schedules
# fails: log and root wait for each other, by 2
count=$#
last=
for turn in $(seq "$count"); do
    word=$1
    shift
    [ "$last" != -w ] || word=1
    last=$word
    set -- "$@" "$word"
done
exec "$RIGHT" "$@"
