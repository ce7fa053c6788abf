# Outputs that are full or closed, inputs that are closed or can't be read, and devices that give
# and take pieces, are interrupted or fail at a certain call. program.sh reads this file.

# fault WHAT FAULT STATUS: the run before wrote nothing.
fault() {
    wants '' "$2"
    judge "$1" "$3"
}

# Plans.
printf '%b' "${sample}root\n" > in
: > out
echo 0 > status
"$program" plan -u web < in > /dev/full 2> err || echo $? > status
fault 'a full output' 'undorc: Write\n' 111
echo 0 > status
"$program" plan -u web < in >&- 2> err || echo $? > status
fault 'a closed output' 'undorc: Write\n' 111
echo 0 > status
"$program" plan -u web <&- > out 2> err || echo $? > status
fault 'a closed input' 'undorc: Read\n' 111
echo 0 > status
"$program" plan -u web < / > out 2> err || echo $? > status
fault 'an input that cannot be read' 'undorc: Read\n' 111
: > err
echo 0 > status
"$program" plan -u nosuch < in > out 2> /dev/full || echo $? > status
fault 'a refusal that cannot be told' '' 1
echo 0 > status
"$program" plan -u nosuch < in > out 2>&- || echo $? > status
fault 'a refusal that nobody is to be told' '' 1

# Queries.
printf '%b' "$sample" > in
echo 0 > status
"$program" db list all < in > /dev/full 2> err || echo $? > status
: > out
fault 'the answer of a query on a full output' 'undorc: Write\n' 111
echo 0 > status
"$program" db list all < in >&- 2> err || echo $? > status
fault 'the answer of a query on a closed output' 'undorc: Write\n' 111
echo 0 > status
"$program" db check < in > /dev/full 2> err || echo $? > status
fault 'no answer on a full output' '' 0
echo 0 > status
"$program" db list all <&- > out 2> err || echo $? > status
fault 'a query without an input' 'undorc: Read\n' 111

# Sessions.
printf '%b' "$sample" > base
printf '%b' "$sample-u change log\nlive\n" > in
: > out
for words in '' '-b base'; do
    echo 0 > status
    # shellcheck disable=SC2086
    "$program" session -x none $words < in > /dev/full 2> err || echo $? > status
    fault "a full output (session -x none $words)" 'undorc: Write\n' 111
    echo 0 > status
    # shellcheck disable=SC2086
    "$program" session -x none $words < in >&- 2> err || echo $? > status
    fault "a closed output (session -x none $words)" 'undorc: Write\n' 111
    echo 0 > status
    # shellcheck disable=SC2086
    "$program" session -x none $words < / > out 2> err || echo $? > status
    fault "an input that cannot be read (session -x none $words)" 'undorc: Read\n' 111
    echo 0 > status
    # shellcheck disable=SC2086
    "$program" session -x none $words <&- > out 2> err || echo $? > status
    fault "a closed input (session -x none $words)" 'undorc: Read\n' 111
done
printf '%b' "$sample# note\n\n" > in
echo 0 > status
"$program" session -x none < in > /dev/full 2> err || echo $? > status
fault 'no answer on a full output' '' 0
: > err
echo 0 > status
"$program" session -x up:nosuch < in > out 2> /dev/full || echo $? > status
fault 'a refusal that cannot be told' '' 1
echo 0 > status
"$program" session -x none < / > out 2> /dev/full || echo $? > status
fault 'a failure that cannot be told' '' 111
echo 0 > status
"$program" session -x up:nosuch < in > /dev/full 2> err || echo $? > status
fault 'a refusal where the output is full' 'undorc: Unknown nosuch\n' 1

# Devices made for it: tests/lib/devices.c says what their words mean.
preloads devices

# over READS WRITES TELLS WORDS..: a run on the file `in`, whose streams are such devices.
over() {
    reads=$1 writes=$2 tells=$3
    shift 3
    echo 0 > status
    LD_PRELOAD="$preload" READS="$reads" WRITES="$writes" TELLS="$tells" \
        "$program" "$@" < in > out 2> err || echo $? > status
}

# plans STATUS OUTPUT FAULT READS WRITES TELLS: a plan over such devices.
plans() {
    wants "$2" "$3"
    over "$4" "$5" "$6" plan web
    judge "undorc plan web, READS='$4' WRITES='$5' TELLS='$6'" "$1"
}
printf '%b' "${sample}root\n" > in
plan='raise db log net web\n'
for bytes in 1 7 100; do
    plans 0 "$plan" '' "piece $bytes" '' ''
    plans 0 "$plan" '' '' "piece $bytes" ''
done

# An interrupted read is tried again 1,000 times in a row, and no more.
plans 0 "$plan" '' 'interrupts 1' '' ''
plans 0 "$plan" '' 'piece 100 interrupts 1000' '' ''
plans 111 '' 'undorc: Read\n' 'interrupts 1001' '' ''
plans 111 '' 'undorc: Read\n' 'cut 1' '' ''
for good in 0 1; do
    plans 111 '' 'undorc: Read\n' "good $good" '' ''
done
plans 111 '' 'undorc: Read\n' 'piece 1 good 2' '' ''

# A write that fails, is interrupted or takes nothing ends the answer.
plans 111 '' 'undorc: Write\n' '' 'piece 0' ''
for word in good cut; do
    plans 111 '' 'undorc: Write\n' '' "$word 0" ''
    plans 111 rais 'undorc: Write\n' '' "piece 2 $word 2" ''
done

# What can't be told, or only in part, alters no status.
plans 111 '' '' 'good 0' '' 'good 0'
plans 111 '' '' 'good 0' '' 'piece 0'
plans 111 '' '' 'good 0' '' 'cut 0'
plans 111 '' 'und' 'good 0' '' 'piece 1 good 3'
plans 111 '' 'undorc: Read\n' 'good 0' '' 'piece 1'

# A session of two lines, kept in a file. Where a read fails, each line is answered that was whole by then, and
# kept. Where a write fails, a front of the answers is written, and what is kept is the session before the change or
# after it.
head='undorc-live 2\nservices db log net root web\nbound 1024\n'
printf '%b' "${head}now\nbundle site web\nend\n" > kept.0
printf '%b' "${head}up\nbundle site web\nnow db log net root web\nbundle site web\nend\n" > kept.1
cp kept.1 kept.2
printf '%b' '-u change site\nlive\n' > in
: > wrote.0
printf '%b' 'raised db log net root web\nok\n' > wrote.1
{ cat wrote.1; printf '%b' 'live db log net root web\nok\n'; } > wrote.2

# ends_so STATUS FAULT: counts the run before where it ended otherwise
ends_so() {
    read -r ended < status
    firsts err > err.firsts
    if [ "$ended" -ne "$1" ] || [ "$(cat err.firsts)" != "$2" ]; then unlike=$((unlike + 1)); fi
}
# failing_at READS WRITES: the session over such devices
failing_at() {
    rm -f kept kept.lock
    over "$1" "$2" '' session -b base -x none -w 3 -l kept
}
unlike=0
runs=0
for word in good cut; do
    for many in 0 1 2 3 4 5; do
        failing_at "piece 4 $word $many" ''
        whole=$(head -c $((4 * many)) in | wc -l)
        ends_so 111 'undorc: Read'
        if ! cmp -s out "wrote.$whole" || ! cmp -s kept "kept.$whole"; then unlike=$((unlike + 1)); fi
    done
    before=-1 many=0
    failing_at '' "piece 16 $word 0"
    while [ "$many" -lt 50 ] && [ "$(cat status)" -ne 0 ]; do
        ends_so 111 'undorc: Write'
        size=$(wc -c < out)
        if [ "$size" -le "$before" ] || ! cmp -s -n "$size" out wrote.2; then unlike=$((unlike + 1)); fi
        if ! cmp -s kept kept.1 && { ! cmp -s kept kept.0 || [ "$size" -gt 0 ]; }; then unlike=$((unlike + 1)); fi
        before=$size many=$((many + 1)) runs=$((runs + 1))
        failing_at '' "piece 16 $word $many"
    done
    ends_so 0 ''
    if ! cmp -s out wrote.2 || ! cmp -s kept kept.2; then unlike=$((unlike + 1)); fi
done
for reads in 'interrupts 1' 'piece 4 interrupts 1000'; do
    failing_at "$reads" ''
    ends_so 0 ''
    if ! cmp -s out wrote.2 || ! cmp -s kept kept.2; then unlike=$((unlike + 1)); fi
done
failing_at 'interrupts 1001' ''
ends_so 111 'undorc: Read'
if [ -s out ] || ! cmp -s kept kept.0; then unlike=$((unlike + 1)); fi
[ "$runs" -ge 8 ] || unlike=$((unlike + 1))
: > out
: > err
echo "$unlike" > status
wants '' ''
judge 'two lines over devices that fail at each call (the status is the number of those that end otherwise)' 0
rm -f kept kept.*

# Sessions on worked lines, and what each front of these is answered.
sed -n 's/^< //p' "$here/rows/sessions.rows" | head -n 60 > some
lines=$(wc -l < some)
unlike=0
for many in $(seq 0 "$lines"); do
    head -n "$many" some > in
    "$program" session -b base -x down:log < in > "answers.$many" 2>&1 || unlike=$((unlike + 1))
done
cp "answers.$lines" whole
for many in $(seq 0 "$lines"); do
    cmp -s -n "$(wc -c < "answers.$many")" "answers.$many" whole || unlike=$((unlike + 1))
done
served() {
    over "$1" "$2" '' session -b base -x down:log -w 3
}

# Where a read fails or is always interrupted, each line that was whole by then is answered, and
# nothing else. Where a write fails or is interrupted, a prefix of the answers is written, longer by a call
# each time. With the database in front of the lines nothing is done where a read fails.
cp some in
cp whole whole.none
: > text.none.0
size=$(wc -c < some)
for word in good cut; do
    refusing device=READS "does=piece 7 $word" "runs=$(((size + 6) / 7 + 11))" faults=Read read=7 \
        -- session -b base -x down:log -w 3
    refusing device=WRITES "does=piece 16 $word" "least=$(($(wc -c < whole) / 16))" faults=Write written=16 \
        -- session -b base -x down:log -w 3
done > said
cat base some > in
refusing device=READS 'does=piece 64 good' least=20 faults=Read alone -- session -x down:log >> said
sort -u said > out
: > err
echo "$unlike" > status
wants '0\n111 undorc: Read\n111 undorc: Write\n' ''
judge 'sessions over devices that fail' 0
: > nothing

# sessions STATUS OUTPUT FAULT READS WRITES: a session on these lines over such devices.
sessions() {
    cp "$2" out.wanted
    printf '%b' "$3" > err.wanted
    served "$4" "$5"
    judge "a session, READS='$4' WRITES='$5'" "$1"
}
cp some in
sessions 0 whole '' 'interrupts 1' ''
sessions 0 whole '' 'piece 100 interrupts 1000' ''
sessions 111 nothing 'undorc: Read\n' 'interrupts 1001' ''
sessions 111 nothing 'undorc: Write\n' '' 'piece 0'

# One input of all worked lines is answered alike by any number of workers, in pieces of any size.
for topic in sessions bundles serving lines; do sed -n 's/^< //p' "$here/rows/$topic.rows"; done |
    while IFS= read -r line; do printf '%b\n' "$line"; done > in
"$program" session -b base -x up:net,down:log < in > out.wanted 2> err.wanted ||
    echo 'status 1' >> out.wanted
firsts err.wanted > err.firsts
mv err.firsts err.wanted
[ "$(grep -c -e '^ok$' -e '^refused ' out.wanted)" -gt 400 ] ||
    echo 'more than 400 answers' >> out.wanted
for workers in 1 2 3 64; do
    for bytes in 1 7 4096; do
        over "piece $bytes" "piece $bytes" '' session -b base -x up:net,down:log -w "$workers"
        judge "all worked lines, $workers workers, in pieces of $bytes bytes" 0
    done
done

# counts_unlike STATUS FAULT OUTPUT: counts the run before where it is not so.
counts_unlike() {
    printf '%b' "$2" > err.wanted
    firsts err > err.firsts
    if [ "$ended" -ne "$1" ] || ! cmp -s err.firsts err.wanted || ! cmp -s out "$3"; then
        unlike=$((unlike + 1))
    fi
}

# fails_by_files WORDS..: one after another each call fails by which files are read, and none before or
# after it. Then nothing is written, and what is told is in `told`; or the run is the whole one, as
# where a listing fails that only spares calls.
fails_by_files() {
    made=-1 well=0
    unlike=0
    : > told
    while [ "$well" -lt 4 ] && [ "$made" -lt 500 ]; do
        made=$((made + 1))
        echo 0 > status
        LD_PRELOAD="$preload" FILES="once $made" \
            "$program" "$@" < in > out 2> err || echo $? > status
        read -r ended < status
        if [ "$ended" -eq 0 ]; then
            well=$((well + 1))
            counts_unlike 0 '' whole
        else
            well=0
            if [ "$ended" -ne 111 ] || [ -s out ]; then unlike=$((unlike + 1)); fi
            firsts err >> told
        fi
    done
    [ "$made" -lt 500 ] || unlike=$((unlike + 1))
    uniq told > out
    : > err
    echo "$unlike" > status
    judge "undorc $*, where one call fails by which files are read" 0
}
: > in
printf '%b' "$sample" > whole
wants "undorc: Io\\n$(printf 'undorc: Io %s\\n' db log net root site web)" ''
fails_by_files compile "$samples/source"
echo root > in
printf '%b' "$plan" > whole
wants 'undorc: Io\n' ''
fails_by_files plan -b base web
: > in
cp "$samples/sample.dot" whole
wants 'undorc: Io\n' ''
fails_by_files db -b base dot
