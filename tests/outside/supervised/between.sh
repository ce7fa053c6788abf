# shellcheck shell=sh
# Two ends of a pipeline that share a fifo, services that are added to a machine that is up, a name that shells read
# otherwise, and a controller without a script. machine.sh reads this file.
# Loggers have their own ways to end: svlogd may drop the line that it reads as TERM comes. So a shell reads here.
longrun reads "trap 'is_over=yes' TERM; is_over=; exec 0<> $room/fifo
while [ -z \"\$is_over\" ] && read -r line; do echo \"read \$line\" >> $room/logged/current; done"
echo writes > services/reads/consumer-for
longrun writes "trap exit TERM; exec 1<> $room/fifo; number=0
while :; do number=\$((number + 1)); echo line \$number; echo \$number > $room/written; sleep 0.02; done"
echo reads > services/writes/producer-for
longrun '*\nx' 'exec sleep 1000'
compiles
does 0 '' "$folder/init"
does 0 'raised reads writes\nok\n' "$folder/manage" change writes
sleep 0.3
by_hand down reads
sleep 0.3
by_hand up reads
sleep 0.3
does 0 'lowered writes\nok\n' "$folder/manage" change -d writes
all_there() {
    [ "$(sed -n '$s/.* //p' logged/current)" -ge "$(cat written)" ]
}
until_so all_there
does 0 'lowered reads\nok\n' "$folder/manage" change -d reads
awk '$3 != NR { print "line " NR " is " $3 } END { if (NR < 10) print NR " lines" }' logged/current | sed 10q > err
wants '' ''
: > out
echo 0 > status
judges 'a fifo loses nothing while its reader is away' 0

# A name that shells read otherwise.
does 0 'raised *\\nx\nok\n' "$folder/manage" change '*\nx'
does 0 '' "$folder/drift"
does 0 'lowered *\\nx\nok\n' "$folder/manage" undo

# `sv` takes the words of a controller as they are.
if [ "$supervisor" = runit ]; then
    export SVDIR="$room/scan"
    does 0 'raised plain\nok\n' "$program" change -b db -l run/live -c 'sv -w 5' plain
    does 0 'lowered plain\nok\n' "$program" undo -b db -l run/live -c 'sv -w 5'
fi
