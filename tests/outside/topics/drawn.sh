# Sessions that are drawn, and what a plain program says that they come to. program.sh reads
# this file.

# Each session is replayed up to each of its commands, with the failures, stops and altered events
# of their runs: the answers, what is live then and the whole journal are as wanted.
mkdir drawn
cd drawn
splits=$(awk -v seed=20261123 -v sessions=150 -v commands=30 -f "$here/drawn.awk")
unlike=0
for session in $(seq 150); do
    for many in $(seq 30); do
        "$program" replay -b "$session.base" < "$session.$many" || echo "status $?"
    done > said 2>&1
    firsts said | cmp -s - "$session.wanted" || unlike=$((unlike + 1))
done
[ "$splits" -gt 20 ] || unlike=$((unlike + 1))
: > out
: > err
wants '' ''
echo "$unlike" > status
judge 'drawn sessions (the status is the number of those that come to something else)' 0
cd ..
rm -r drawn
