# shellcheck shell=sh
# The controller by itself on each kind of daemon: its status, and what it leaves behind. machine.sh reads
# this file.
longrun plain 'exec sleep 1000'
ready_after slow 1
never_ready never
longrun crash 'exit 7'
longrun late 'sleep 0.3; exit 7'
ready_after early 100
printf '#!/bin/sh\nexit 9\n' > services/early/run
deaf deaf
shut shut
lame lame
[ "$supervisor" = s6 ] || checked hangs 'exec sleep 1000' 'exec sleep 30'
compiles
find services | sort > before
export UNDORC_BOUND=20000

# controls STATUS WAY NAME STATE: the controller ends so, and then the supervisor says so
controls() {
    wants '' ''
    echo 0 > status
    "$folder/controller" "$2" "$3" > told 2>&1 || echo $? > status
    : > out
    until_so is_state "$3" "$4" > err || state "$3" >> err
    judges "controller $2 $3" "$1"
}

# Without a supervisor nothing begins.
if [ "$supervisor" = s6 ]; then
    echo 0 > status
    : > err
    "$folder/boot" plain > out 2> told || echo $? > status
    judges 'boot without a supervisor' 1
fi
controls 111 up plain unsupervised

scans
does 0 '' "$folder/init"
does 0 '' "$folder/init"
none_started() {
    for pids in pids.*; do [ ! -e "$pids" ] || return 1; done
}
holds 'init starts nothing' none_started
find services | sort > after
holds 'the sources are as before' cmp before after

controls 3 state plain down
controls 0 up plain up
controls 0 up plain up
controls 0 state plain up
begun=$(date +%s%N)
controls 0 up slow up
holds 'readiness is waited for' test $(($(date +%s%N) - begun)) -ge 1000000000
controls 0 up slow up
UNDORC_BOUND=1500
controls 1 up never down
UNDORC_BOUND=20000
# What ends at once fails at once, with its own status.
begun=$(date +%s)
controls 7 up crash down
controls 7 up late down
controls 9 up early down
controls 127 up lame down
holds 'they are not waited for' test $(($(date +%s) - begun)) -lt 12
controls 0 up shut up
controls 0 down shut down
controls 0 up deaf up
UNDORC_BOUND=1500
[ "$supervisor" = s6 ] || controls 1 up hangs down
controls 1 down deaf up
UNDORC_BOUND=20000
: > hears
controls 0 down deaf down
controls 0 down slow down
controls 0 down plain down
controls 0 down plain down
controls 111 up nobody unsupervised
controls 111 down nobody unsupervised
controls 100 restart plain down

# A wish outlives the supervisor, both ways.
controls 0 up plain up
was=$(number plain)
kills_supervisor plain
holds 'the scanner starts another supervisor' until_so is_replaced plain
holds 'what is up comes up behind a killed supervisor' until_so is_another plain "$was"
orphans plain
controls 0 down plain down
kills_supervisor plain
holds 'the scanner starts another supervisor again' until_so is_replaced plain
sleep 1
holds 'what is down stays down behind a killed supervisor' until_so is_state plain down

# One that is ended by TERM takes its wish back; so does one whose supervisor dies while it waits.
"$folder/controller" up never > told 2>&1 &
waiting=$!
until_so is_state never up
kill "$waiting"
echo 0 > status
wait "$waiting" || echo $? > status
state never > err
wants '' 'down\n'
judges 'a controller that is sent TERM' 124
UNDORC_BOUND=3000
"$folder/controller" up never > told 2>&1 &
waiting=$!
until_so is_state never up
kills_supervisor never
echo 0 > status
wait "$waiting" || echo $? > status
until_so is_state never down > err || state never >> err
wants '' ''
judges 'a controller whose supervisor is killed' 1
orphans never
unset UNDORC_BOUND
