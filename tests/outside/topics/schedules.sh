# Transitions of the sample by several workers: how often each is made, and which of them run at the
# same time. program.sh reads this file.
# shellcheck source=../trees.sh
. "$here/trees.sh"
mkdir schedules
cd schedules
printf '%b' "$sample" > base
# It stands for each script and for the controller. It notes each call, and where it is called for one
# of two transitions, it waits for the other, a hundredth of a second as often as PATIENCE says.
cat > gate <<'END_GATE'
#!/bin/sh
key="$UNDORC_WAY-$UNDORC_NAME"
echo "$key" >> asked
case $key in
    "$ONE") other=$TWO ;;
    "$TWO") other=$ONE ;;
    *) exit 0 ;;
esac
: > "come.$key"
turn=0
until [ -e "come.$other" ]; do
    turn=$((turn + 1))
    [ "$turn" -le "$PATIENCE" ] || exit 1
    sleep 0.01
done
END_GATE
chmod +x gate
export ONE=none TWO=none PATIENCE=1000

# by WORKERS LINES: a session of these lines by that many workers
by() {
    rm -f asked come.*
    printf '%b' "$2" > in
    runs session -b base -r ./gate -c ./gate -w "$1"
}

# one_of WHAT OUTPUT OUTPUT: the session before wrote the one or the other
one_of() {
    wants "$2" ''
    printf '%b' "$3" > other.wanted
    ! cmp -s out other.wanted || cp other.wanted out.wanted
    judge "$1" 0
}

# Each transition is made once. `root` has no `down`, so nothing is started for its way down.
for workers in 1 2 64; do
    by "$workers" '-u change site\nundo\nredo\n'
    wants 'raised db log net root web\nok\nlowered db log net root web\nok\nraised db log net root web\nok\n' ''
    judge "a change, an undo and a redo of the sample by $workers" 0
    for name in db log net root web; do
        printf '%s\n' "up-$name" "up-$name"
        [ "$name" = root ] || echo "down-$name"
    done | sort > left.wanted
    sort asked > left
    same "each transition is made once, by $workers"
done

# Two that come up wait for each other: two workers make them at the same time. One worker makes one
# after the other, so the first of them fails, whichever that is.
ONE=up-log TWO=up-root
for workers in 2 64; do
    by "$workers" '-u change site\n'
    wants 'raised db log net root web\nok\n' ''
    judge "log and root wait for each other, by $workers" 0
done
PATIENCE=100
by 1 '-u change site\n'
one_of 'log and root wait for each other, by 1' 'raised db net root\nfailed log\nblocked web\nok\n' \
    'raised log\nfailed root\nblocked db net web\nok\n'

# The same of one that goes down and one that comes up.
ONE=down-net TWO=up-log
for workers in 2 64; do
    PATIENCE=1000
    by "$workers" '-u change net\n-pu change log\n'
    wants 'raised net root\nok\nlowered net\nraised log\nkept root\nok\n' ''
    judge "net goes down and log comes up, by $workers" 0
done
PATIENCE=100
by 1 '-u change net\n-pu change log\n'
one_of 'net goes down and log comes up, by 1' 'raised net root\nok\nlowered net\nfailed log\nkept root\nok\n' \
    'raised net root\nok\nraised log\nfailed net\nkept root\nok\n'
unset ONE TWO PATIENCE
cd ..
rm -r schedules
