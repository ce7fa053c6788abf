# The file of a session, and scripts, over devices that fail: at each of the calls about files, of the
# reads and writes, of the starts of scripts and of the waits for them. program.sh reads this
# file; tests/lib/devices.c makes the devices.
works_in keeping
preloads devices
three_scripts
: > in
begins_at session -b base
printf '%s\n' 'change b c' undo 'add both a c' 'delete both other' > in
expects none

# failing LEAST ENDS DEVICE WORDS OPTIONS: runs of `command` whose DEVICE does what WORDS say at one call after the
# other, until none is left: LEAST at least. ENDS are the lines of how they end. OPTIONS are words for
# tests/lib/refusals.py. What one leaves beside its file where all calls fail, that of removing it among them, the next
# one removes.
failing() {
    # shellcheck disable=SC2086
    all_end "0\n$2" "undorc $command, whose $3 are '$4'" "device=$3" "does=$4" "least=$1" "file=$file" harmless=40 answers kept $5 \
        -- $command
}

command='session -b base -P -w 2'

# Files, each call alone and with all that follow. A script that can't be handed /dev/null is not
# started.
io='111 undorc: Io\n'
for file in file link; do
    failing 55 "$io" FILES once 'faults=Io scripts'
    failing 55 "$io" FILES 'piece 16 once' 'faults=Io scripts'
    failing 55 "$io" FILES good 'faults=Io scripts'
    failing 55 "$io" FILES once 'faults=Io scripts fresh'
    failing 55 "$io" FILES good 'faults=Io scripts fresh'
done

# Reads and writes of the streams. What was answered, in part or not at all, is done and on file.
for word in once good cut; do
    failing 5 '111 undorc: Read\n' READS "piece 7 $word" 'faults=Read scripts'
    failing 10 '111 undorc: Write\n' WRITES "piece 5 $word" 'faults=Write scripts'
done

# Starts of scripts, and waits for them. What can't be waited for is told as not started, and nobody
# knows whether it ran.
failing 12 '' STARTS once 'scripts lost'
failing 12 '' STARTS good 'scripts lost'

# One-shot commands on the same file: a session of the one line says what they are to come to, or of those
# that have none what they write where nothing fails. The text of a session becomes a history before anything moves.
one_shot_over() {
    command=$1 shown=$2
    printf '%s\n' "$shown" > in
    expects none
    : > whole.err
    if [ -z "$shown" ]; then
        # shellcheck disable=SC2086
        "$program" $command -l text.none.0 > whole.none 2> whole.err
        cp text.none.0 text.none.1
    elif [ "$(head -n 1 text.none.0)" = 'undorc-live 2' ]; then
        history_of stop text.none.0 > text.none.0.then
        history_of stop text.none.1 > made
        mv made text.none.1
    fi
    failing "$3" "$io" FILES once 'faults=Io notes'
    failing "$3" "$io" FILES good 'faults=Io notes'
    failing 3 '111 undorc: Write\n' WRITES 'piece 5 good' 'faults=Write notes'
    rm -f text.none.0.then
}
printf '%s\n' 'change a c' 'change b' undo > in
rm text.* whole.*
begins_at session -b base -x none
one_shot_over 'change b -b base -x none' 'change b' 20
one_shot_over 'undo -b base -x none -w 1' undo 20
mv text.none.0 plain
history_of stop plain > text.none.0
one_shot_over 'change b -b base -x none' 'change b' 20
mv plain text.none.0
one_shot_over 'undo -n -b base' '' 5
one_shot_over 'redo -n -b base' '' 5

# A log that can't be emptied when its run is over: the next run is not logged behind it, so nothing of it is
# started, and what a recovery finds is the log of the first run alone.
printf 'change a\nchange c\n' > in
wants 'raised a\nok\nfailed c\nok\n' \
    'undorc: full.run can'"'"'t be written: what could not be logged was not started\n'
echo 0 > status
LOG=ran LD_PRELOAD="$preload" LENGTHS='good 5' "$program" session -b base -l full -w 1 < in > out 2> err || echo $? > status
judge 'a log that can'"'"'t be emptied gets no second run' 0
wants 'take 1 a\ndone 1 a ok\n' ''
sed -n '/^take /p; /^done /p' full.run > out
: > err
echo 0 > status
judge 'and has the lines of the first run alone' 0
worked_in
