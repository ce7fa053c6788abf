# The file of `session -l`: what is read and written there, which files are refused and left alone, and
# what is left of it by a program that is killed. program.sh reads this file.
mkdir live
cd live
printf '%b' "$sample" > base
services='services db log net root web\n'
site='bundle site web\n'

# goes_on STATUS OUTPUT FAULT LINES WORDS..: a session that is kept in the file `live`
goes_on() {
    status=$1 output=$2 fault=$3 lines=$4
    shift 4
    expect "$status" "$output" "$fault" "$lines" session -b base -x none -l live "$@"
}

# file_holds WHAT TEXT: the file `live` has this text, and nothing is left beside it
file_holds() {
    passed=$((passed + 1))
    printf '%b' "$2" > live.wanted
    if ! cmp -s live live.wanted || [ -e live.new ]; then
        passed=$((passed - 1))
        failed=$((failed + 1))
        echo "FAILED: $1: the file of the session (- wanted, + found), or something is left beside it:"
        diff -a -u live.wanted live | sed -e 1,2d -e 40q || true
    fi
}

# begins_with TEXT: the file `live` has this text
begins_with() {
    printf '%b' "$1" > live
}

# A file that is not there is made, with the bound that is asked.
goes_on 0 '' '' '' -n 3
file_holds 'a fresh session with a bound' "undorc-live 2\\n${services}bound 3\\nnow\\n${site}end\\n"
rm live
goes_on 0 'live\nok\n' '' 'live\n'
file_holds 'a fresh session' "undorc-live 2\\n${services}bound 1024\\nnow\\n${site}end\\n"
rm live

# A session goes on in the next one: a failed undo, what is left of it, and its end.
split="now log\\n${site}up db log net root web\\n${site}end\\n"
wants 'raised db log net root web\nok\nlowered db net root web\nfailed log\nok\n' ''
printf 'change site\nundo\n' > in
runs session -b base -x down:log -l live
judge 'a failed undo that is kept' 0
file_holds 'a failed undo' "undorc-live 2\\n${services}bound 1024\\nup\\n${site}$split"
goes_on 0 'at 1 of 3\n0 +log\n1 +db +net +root +web\nok\n' '' 'journal\n' -n 3
file_holds 'a look' "undorc-live 2\\n${services}bound 1024\\nup\\n${site}$split"
goes_on 0 'lowered log\nok\nlive\nok\n' '' 'undo\nlive\n'
file_holds 'what was left of an undo' \
    "undorc-live 2\\n${services}bound 1024\\nnow\\n${site}up log\\n${site}up db log net root web\\n${site}end\\n"

# The older form is read, and the newer one written.
older="undorc-live 1\\n${services}up\\n${site}$split"
begins_with "$older"
goes_on 0 'lowered log\nok\nlive\nok\n' '' 'undo\nlive\n'
file_holds 'an older text' \
    "undorc-live 2\\n${services}bound 1024\\nnow\\n${site}up log\\n${site}up db log net root web\\n${site}end\\n"

# file_refused TEXT WORD: this file is refused with this word and left alone, and nothing of the input is read
file_refused() {
    begins_with "$1"
    cp live live.before
    printf 'undo\n' > in
    echo 0 > status
    { "$program" session -b base -x none -l live > out 2> err || echo $? > status; cat > rest; } < in
    wants '' "undorc: $2\\n"
    cmp -s in rest || echo 'the input was read' >> err
    cmp -s live live.before || echo 'the file was written' >> err
    judge "the file of a session that is refused: $2" 1
}
file_refused '' 'Bad 0'
file_refused 'notes\n' 'Bad 0'
file_refused "$sample" 'Bad 0'
file_refused "undorc-live 3\\n" Version
file_refused "undorc-live 01\\n" 'Bad 0'
head="undorc-live 2\\n${services}"
file_refused "undorc-live 2\\nservices db\\nbound 3\\nnow\\nend\\n" OtherDb
file_refused "undorc-live 2\\nservices db\\nbound 3\\nnow other\\nend\\n" OtherDb
file_refused "${head}bound 3\\nnow other\\n${site}end\\n" Unknown
file_refused "${head}bound 3\\nnow web\\nbundle web log\\nend\\n" Unknown
file_refused "${head}bound 3\\nnow\\nbundle site other\\nend\\n" Unknown
file_refused "${head}bound 3\\nnow web\\n${site}end\\n" 'NotClosed 0'
file_refused "${head}bound 3\\nup\\nup net\\nnow net\\nend\\n" 'NotClosed 1'
file_refused "${head}bound 3\\nup\\nnow\\nend\\n" SameState
file_refused "${head}bound 3\\nup\\nup log\\nnow\\nup log\\nend\\n" OverBound
file_refused "${head}bound 2\\nnow\\n${site}end\\n" 'Bad 43'
file_refused "${head}bound 4294967296\\nnow\\n${site}end\\n" 'Bad 43'
file_refused "${head}bound 03\\nnow\\n${site}end\\n" 'Bad 43'
file_refused "${head}now\\n${site}end\\n" 'Bad 43'
file_refused "undorc-live 1\\n${services}bound 3\\nnow\\n${site}end\\n" 'Bad 43'
file_refused "${head}bound 3\\nnow\\nnow log\\nend\\n" 'Bad 55'
file_refused "${head}bound 3\\nup\\nend\\n" 'Bad 54'
file_refused "${head}bound 3\\n${site}now\\nend\\n" 'Bad 51'
file_refused "${head}bound 3\\nnow net  root\\nend\\n" 'Bad 51'
file_refused "${head}bound 3\\nnow root net\\nend\\n" 'Bad 51'
file_refused "${head}bound 3\\nnow\\n${site}${site}end\\n" 'Bad 71'
file_refused "${head}bound 3\\nnow \\nend\\n" 'Bad 51'
file_refused "${head}bound 3\\nnow\\r\\nend\\n" 'Bad 51'
file_refused "${head}bound 3\\nnow\\nend\\nend\\n" 'Bad 59'
file_refused "${head}bound 3\\nnow\\nend" 'Bad 55'

file_refused "${head%\\n} x\\nbound 3\\nnow\\nend\\n" OtherDb
file_refused "${head}bound 3\\nnow\\nup root\\nbundle site other\\nend\\n" Unknown
# Of two things that are wrong in one text, the first of: its form, its database, a name, what is not closed, a state that
# is that before it, and more states than the bound.
file_refused "undorc-live 2\\nservices db\\nbound 3\\nnow\\nend\\n\\n" 'Bad 42'
file_refused "${head}bound 3\\nup web\\nnow other\\nend\\n" Unknown
file_refused "${head}bound 3\\nup\\nup\\nnow web\\nend\\n" 'NotClosed 2'
file_refused "${head}bound 3\\nup\\nup\\nup root\\nnow\\nend\\n" SameState

# keeps WHAT TEXT: a session without a line reads this text and writes it back
keeps() {
    begins_with "$2"
    goes_on 0 '' '' ''
    file_holds "$1" "$2"
}
keeps 'bundles that come, alter and go' \
    "${head}bound 1024\\nup\\nup\\nbundle a\\nbundle b db web\\nup root\\nbundle a log\\nnow root\\nup\\nend\\n"
keeps 'the same services and other bundles' "${head}bound 1024\\nup root\\n${site}now root\\nend\\n"
keeps 'states alike that are no neighbours' "${head}bound 1024\\nup root\\nup\\nnow root\\nend\\n"
keeps 'as many states as the bound' "${head}bound 3\\nup\\nup root\\nnow\\nend\\n"
# The older form has no bound: it has the usual one, or as many as there are states.
many=$(awk 'BEGIN { for (i = 0; i < 600; i++) printf "up\\nup root\\n" }')
keeps '1,201 states' "${head}bound 1201\\n${many}now\\nend\\n"
file_refused "${head}bound 1200\\n${many}now\\nend\\n" OverBound
begins_with "undorc-live 1\\n${services}${many}now\\nend\\n"
goes_on 0 '' '' ''
file_holds '1,201 states of the older form' "${head}bound 1201\\n${many}now\\nend\\n"
# 4,096 services, none needing another, and 1,024 states, each with a hundred services up that follow each other.
awk 'BEGIN {
    print "undorc-db 1\nservices 4096"
    for (i = 1000; i < 5096; i++) printf "service s%d longrun plain 0 0\nneeds\nproducer -\n", i
    print "bundles 0\nend"
}' > wide
awk 'BEGIN {
    printf "undorc-live 2\nservices"
    for (i = 1000; i < 5096; i++) printf " s%d", i
    print "\nbound 1024"
    for (k = 0; k < 1024; k++) {
        printf k == 512 ? "now" : "up"
        for (i = 1000 + k; i < 1100 + k; i++) printf " s%d", i
        print ""
    }
    print "end"
}' > live
cp live wide.live
wants '' ''
: > in
runs session -b wide -x none -l live
cmp live wide.live >> err || true
judge '4,096 services and 1,024 states are written back' 0

# What is told first: the words, the database, the list of -x, and then the file.
begins_with 'notes\n'
printf '%b' "$sample" | sed 's/^needs root/needs nosuch/' > wrong
wants '' 'undorc: Dangling\n'
: > in
runs session -b wrong -x up:nosuch -l live
judge 'a wrong database before a wrong file' 1
wants '' 'undorc: Unknown nosuch\n'
runs session -b base -x up:nosuch -l live
judge 'a wrong list before a wrong file' 1
wants '' 'undorc: Dangling\n'
runs session -b wrong -x none -l .
judge 'a wrong database before a file that is none' 1
cat wrong > in
runs session -x none -l live
judge 'a wrong database in front of the lines before a wrong file' 1

# A database in front of the lines: the session is kept all the same.
rm live
wants 'raised log\nok\n' ''
{ printf '%b' "$sample"; echo change log; } > in
runs session -x none -l live
judge 'a session whose database stands in front of its lines' 0
file_holds 'a session whose database stands in front of its lines' \
    "undorc-live 2\\n${services}bound 1024\\nup\\n${site}now log\\n${site}end\\n"

# A text that was cut is refused at the first byte of the line that holds the byte where it ends.
kept="undorc-live 2\\n${services}bound 1024\\nup\\n${site}$split"
for text in "$kept" "$older"; do
    printf '%b' "$text" > whole
    length=$(wc -c < whole)
    for bytes in $(seq 0 $((length - 1))); do
        head -c "$bytes" whole > live
        start=$(head -c "$bytes" whole | sed '$!d' | awk 'END { print length($0) }')
        [ "$bytes" -eq 0 ] || [ "$(head -c "$bytes" whole | tail -c 1 | wc -l)" -eq 0 ] || start=0
        echo "undorc: Bad $((bytes - ${start:-0}))" > "told.$bytes"
    done
    unlike=0
    for bytes in $(seq 0 $((length - 1))); do
        head -c "$bytes" whole > live
        ended=0
        "$program" session -b base -x none -l live < /dev/null > out 2> err || ended=$?
        [ "$ended" -eq 1 ] || unlike=$((unlike + 1))
        firsts err | cmp -s - "told.$bytes" || unlike=$((unlike + 1))
        [ "$(wc -c < live)" -eq "$bytes" ] || unlike=$((unlike + 1))
        rm "told.$bytes"
    done
    : > out
    : > err
    wants '' ''
    echo "$unlike" > status
    judge 'a text of a session cut after each of its bytes (the status is the number of those told otherwise)' 0
done

# With one byte changed, missing or more, or a line twice or missing, a text is refused and left alone, or it is the text of
# another session, and stands there as it was given.
printf '%b' "$kept" > whole
length=$(wc -c < whole)
count=$(wc -l < whole)
unlike=0
tries() {
    cp live live.before
    ended=0
    "$program" session -b base -x none -l live < /dev/null > out 2> err || ended=$?
    if [ "$ended" -eq 1 ]; then
        grep -qE '^undorc: (Bad [0-9]+|Version|OtherDb|Unknown|NotClosed [0-9]+|SameState|OverBound)$' err || unlike=$((unlike + 1))
    elif [ "$ended" -ne 0 ] || [ -s err ]; then
        unlike=$((unlike + 1))
    fi
    [ -s out ] && unlike=$((unlike + 1))
    cmp -s live live.before || unlike=$((unlike + 1))
}
for place in $(seq 0 $((length - 1))); do
    for byte in ' ' '\n' 2 '\377'; do
        # shellcheck disable=SC2059 # the byte is a format
        { head -c "$place" whole; printf "$byte"; tail -c $((length - place - 1)) whole; } > live
        tries
    done
    { head -c "$place" whole; tail -c $((length - place - 1)) whole; } > live
    tries
    { head -c "$place" whole; printf o; tail -c $((length - place)) whole; } > live
    tries
done
for line in $(seq "$count"); do
    sed "${line}d" whole > live
    tries
    sed "${line}p" whole > live
    tries
done
: > out
: > err
wants '' ''
echo $((unlike > 255 ? 255 : unlike)) > status
judge 'changed texts of a session (the status is the number of those that came to something else)' 0

# Files that are none, or can't be written, are found before anything is done.
fails_on() {
    printf 'change log\n' > in
    wants '' 'undorc: Io\n'
    runs session -b base -x none -l "$1"
    judge "a session that is to be kept in $1" 111
}
rm live
mkdir live
fails_on live
rmdir live
mkfifo live
fails_on live
rm live
fails_on /dev/null
fails_on nowhere/live
fails_on ''
mkdir live.new
fails_on live
rmdir live.new
if may_be_nobody 'a session in a folder or file without rights'; then
    mkdir shut
    begins_with "$kept"
    mv live shut/live
    chmod 700 . shut
    chmod 711 . "$room"
    chmod 555 shut
    chmod 644 shut/live base
    printf 'undo\n' > in
    wants '' 'undorc: Io\n'
    cp "$program" undorc
    chmod 755 undorc
    echo 0 > status
    setpriv --reuid=65534 --regid=65534 --clear-groups ./undorc session -b base -x none -l shut/live < in > out 2> err || echo $? > status
    judge 'a session in a folder that may not be written' 111
    mv shut/live live
    file_holds 'a session in a folder that may not be written' "$kept"
    chmod 000 live
    echo 0 > status
    setpriv --reuid=65534 --regid=65534 --clear-groups ./undorc session -b base -x none -l live < in > out 2> err || echo $? > status
    judge 'a session in a file that may not be read' 111
    chmod 644 live
fi

# A link is followed and stays one, rights stay as they are, and what an older run left beside is no hindrance.
rm -rf live live.new
mkdir -p other
begins_with "$kept"
chmod 640 live
mv live other/place
ln -s other/place live
ln live.before other/place.new
cp live.before old.before
goes_on 0 'lowered log\nok\n' '' 'undo\n'
kept_on="undorc-live 2\\n${services}bound 1024\\nnow\\n${site}up log\\n${site}up db log net root web\\n${site}end\\n"
file_holds 'a link' "$kept_on"
wants 'other/place 640\n' ''
echo 0 > status
: > err
{ readlink live; stat -c %a other/place; } | tr '\n' ' ' | sed 's/ $/\n/' > out
cmp -s live.before old.before || echo 'what stood beside was written' >> out
judge 'a link, and the rights of its file' 0
rm -rf live other
ln -s other/place live
mkdir other
goes_on 0 'raised log\nok\n' '' 'change log\n'
wants 'other/place\n' ''
echo 0 > status
readlink live > out
judge 'a link that leads nowhere yet' 0
file_holds 'a link that led nowhere' "undorc-live 2\\n${services}bound 1024\\nup\\n${site}now log\\n${site}end\\n"
rm -rf live other

# Answers that nobody reads: what was done is on file, and no more.
begins -b base -x none -l live
tell 'change log'
hear
exec 4<&-
tell 'change root'
exec 4< /dev/null
wants 'raised log\nok\n' 'undorc: Write\n'
ends 'answers of a kept session that nobody reads any more' 111
file_holds 'answers that nobody reads any more' \
    "undorc-live 2\\n${services}bound 1024\\nup\\n${site}up log\\n${site}now log root\\n${site}end\\n"
rm live

# A session that is killed at any moment leaves a whole text: that of the commands that were answered, or
# of one more. The next session goes on from it.
commands='change log\nchange net\nundo\nredo\nadd -f site log\ndelete site\nundo\nchange web\n-d change net\nundo\n'
commands="$commands$commands$commands$commands"
printf '%b' "$commands" > lines
: > told
"$program" session -b base -x none -l live < /dev/null
cp live text.0
number=0
while IFS= read -r line; do
    number=$((number + 1))
    printf '%s\n' "$line" | "$program" session -b base -x none -l live > /dev/null
    cp live "text.$number"
done < lines
unlike=0
cut=0
for moment in $(seq 100); do
    rm -f live live.new
    timeout -s KILL "0.$(printf '%03d' $((moment * 2 / 3 + 2)))" \
        "$program" session -b base -x none -l live < lines > out 2> err || true
    answered=$(grep -cE '^(ok|refused .*)$' out || true)
    [ "$answered" -eq "$number" ] || cut=$((cut + 1))
    if ! [ -e live ]; then
        [ "$answered" -eq 0 ] || unlike=$((unlike + 1))
        continue
    fi
    cmp -s live "text.$answered" || cmp -s live "text.$((answered + 1))" || unlike=$((unlike + 1))
    "$program" session -b base -x none -l live -W < /dev/null > out 2> err || unlike=$((unlike + 1))
    [ ! -e live.new ] || unlike=$((unlike + 1))
done
[ "$cut" -gt 3 ] || unlike=$((unlike + 1))
: > out
: > err
wants '' ''
echo "$unlike" > status
judge 'sessions that were killed (the status is the number of those that left something else)' 0

# Drawn commands on lines of 3 to 5 states, each a run of its own that goes on with what the one before
# left, come to what a plain program says.
mkdir drawn
cd drawn
gone=$(awk -v seed=7 -v sessions=40 -v commands=24 -v bounded=1 -f "$here/drawn.awk")
unlike=0
for session in $(seq 40); do
    rm -f live
    for many in $(seq 24); do
        # shellcheck disable=SC2046
        "$program" session -b "$session.base" -l live $(cat "$session.$many.words") < "$session.$many" || echo "status $?"
    done > said 2>&1
    firsts said | grep -v 'live does not exist' | cmp -s - "$session.wanted" || unlike=$((unlike + 1))
done
[ "${gone% *}" -gt 2 ] && [ "${gone#* }" -gt 2 ] || unlike=$((unlike + 1))
: > out
: > err
wants '' ''
echo "$unlike" > status
judge 'drawn commands on bounded lines (the status is the number of sessions that come to something else)' 0
cd ../..
rm -r live
