# Texts at their bounds, and files that others own, or alter while they are read. program.sh reads
# this file.
mkdir bounds
cd bounds
printf '%b' "$sample" > base
export LC_ALL=C

# Names of 255 bytes, of which the first 254 are alike; one more is no name.
tail=$(printf '%254s' '' | tr ' ' n)
{
    printf 'undorc-db 1\nservices 4\n'
    for end in 1 2 3 4; do
        printf 'service %s longrun plain 0 0\nneeds%s\nproducer -\n' "$tail$end" \
            "$(for other in 1 2 3; do [ "$other" -ge "$end" ] || printf ' %s' "$tail$other"; done)"
    done
    printf 'bundles 1\nbundle %s %s\nend\n' "${tail}5" "${tail}2"
} > long
printf '%s\n' "change ${tail}3" "-d change ${tail}5" "change ${tail}6" "change ${tail}33" > in
runs session -b long -x "up:${tail}4,down:${tail}3"
{
    echo "raised ${tail}1 ${tail}2 ${tail}3"
    echo ok
    printf 'failed %s\nblocked %s\nok\n' "${tail}3" "${tail}2"
    echo "refused Unknown ${tail}6"
    echo "refused Unknown ${tail}33"
} > out.wanted
: > err.wanted
judge 'names of 255 bytes that differ in the last' 0

# As many bundles as there may be, each with as many services as there may be: 4,096 times 4,096.
awk 'BEGIN {
    print "undorc-db 1\nservices 4096"
    for (i = 1000; i < 5096; i++) {
        print "service s" i " longrun plain 0 0\nneeds\nproducer -"
        names = names " s" i
    }
    print "bundles 4096"
    for (i = 1000; i < 5096; i++) print "bundle b" i names
    print "end"
}' > widest
: > in
runs db -b widest contents b5095
awk 'BEGIN { for (i = 1000; i < 5096; i++) print "s" i }' > out.wanted
: > err.wanted
judge 'the contents of one of 4,096 bundles of 4,096 services' 0
rm widest

# A line of as many states as it may have where nothing is said, and one more: the oldest goes. A text of
# a state more is refused and left alone.
awk 'BEGIN {
    print "undorc-live 2\nservices db log net root web\nbound 1024"
    for (i = 1; i <= 1024; i++) print (i < 1024 ? "up" : "now") (i % 2 ? "" : " log")
    print "end"
}' > full
echo '-d change log' > in
runs session -b base -x none -l full
{ grep -c -e '^up' -e '^now' full; tail -n 3 full; } >> out
wants 'lowered log\nok\n1024\nup log\nnow\nend\n' ''
judge 'a line of 1,024 states, and one more' 0
printf '%s\n' undo journal > in
"$program" session -b base -x none -l full < in 2> err | head -n 3 > out
wants 'raised log\nok\nat 1022 of 1024\n' ''
judge 'a line of 1,024 states that goes on' 0
awk '/^bound/ { print "bound 1023"; next } { print }' full > over
cp over before
echo live > in
runs session -b base -x none -l over
cmp -s over before || echo 'the file was written' >> err
wants '' 'undorc: OverBound\n'
judge 'a text of a state more than there may be' 1
rm full over

# The file of a session is a link to a file that somebody else owns, in a folder of theirs: it is left
# alone. This row runs the program as nobody, where the script runs as root.
if may_be_nobody 'a session in a file of somebody else'; then
    mkdir theirs ours
    cp "$program" undorc
    chmod 755 . theirs undorc
    chmod 777 ours
    printf 'undorc-live 2\nservices db log net root web\nbound 3\nnow\nend\n' > theirs/live
    chmod 644 theirs/live
    ln -s ../theirs/live ours/live
    cp theirs/live before
    echo 'change log' > in
    echo 0 > status
    setpriv --reuid=65534 --regid=65534 --clear-groups \
        ./undorc session -b base -x none -l ours/live < in > out 2> err || echo $? > status
    wants '' 'undorc: Io\n'
    judge 'a link to a file in the folder of somebody else' 111
    { cmp before theirs/live && readlink ours/live && ls theirs ours; } > out 2>&1
    echo 0 > status
    : > err
    wants '../theirs/live\nours:\nlive\n\ntheirs:\nlive\n' ''
    judge 'what a link to a file of somebody else left' 0
fi

# What is to be written beside a file is a link to another file: that is not followed, and goes. A
# database in a folder of somebody else may be read, and one that may not be read is told.
echo theirs > precious
for named in live db; do
    ln -s precious "$named.new"
    case $named in
        live) echo 'change log' > in; set -- session -b base -x none -l live ;;
        db) : > in; mkdir -p none; set -- compile none -o db ;;
    esac
    runs "$@"
    { cat precious; find . -name '*.new'; } > out
    wants 'theirs\n' ''
    judge "a link to another file where undorc $* writes beside its file" 0
done
rm live db precious
if may_be_nobody 'files of somebody else'; then
    cp base secret
    chmod 600 secret
    ln -s secret hidden
    for words in 'session -b hidden -x none' 'plan -b secret' 'compile shut'; do
        mkdir -p shut/one
        chmod 700 shut
        : > in
        echo 0 > status
        # shellcheck disable=SC2086
        setpriv --reuid=65534 --regid=65534 --clear-groups ./undorc $words < in > out 2> err || echo $? > status
        wants '' 'undorc: Io\n'
        judge "a file of somebody else: undorc $words" 111
    done
    # Who owns a file in a folder that others may write keeps it.
    mkdir common
    chmod 1777 common
    cp base common/db
    chmod 666 common/db
    cp common/db before
    echo 0 > status
    setpriv --reuid=65534 --regid=65534 --clear-groups ./undorc compile none -o common/db < in > out 2> err || echo $? > status
    cmp -s common/db before || echo 'the file was written' >> err
    wants '' 'undorc: Io\n'
    judge 'the file of somebody else in a folder that all may write' 111
fi

# What a script is given: three streams and no other file, whatever undorc has open, and the environment
# of undorc with the three variables that are told it.
if [ ! -e /proc/self/fd ]; then
    skip 'what is open to a script, which takes /proc'
else
    mkdir -p tells/one
    echo oneshot > tells/one/type
    printf '%s\n' 'ls -l /proc/self/fd > files' "tr '\\0' '\\n' < /proc/\$\$/environ > environment" > tells/one/up
    "$program" compile tells > told
    printf '%s\n' PATH=/usr/bin:/bin UNDORC_LIMIT=0 UNDORC_NAME=one UNDORC_WAY=up WORD=x | sort > out.wanted
    printf '0 /dev/null\n1 %s\n2 /dev/null\n3 \n' "$PWD/files" >> out.wanted
    for workers in 1 2; do
        echo 'change one' > in
        : > err
        echo 0 > status
        env -i WORD=x PATH=/usr/bin:/bin "$program" session -b told -l kept.$workers -w "$workers" \
            < in > answers 7< base || echo $? > status
        sort environment > out
        awk '$10 == "->" { print $9, ($11 ~ /^\/proc\// ? "" : $11) }' files >> out
        : > err.wanted
        judge "what is open to a script, and its environment, by $workers" 0
    done
fi

# A source directory that changes while it is read: what is told is a database, or a refusal that names
# what was seen. Both come in so many runs.
mkdir -p source spare
for i in $(seq 40); do
    mkdir "source/s$i"
    echo oneshot > "source/s$i/type"
    echo true > "source/s$i/up"
done
while [ ! -e stop ]; do
    mv source/s1 source/s2 source/s3 spare/
    rm -f source/s4/up source/s5/type
    mkdir -p source/s6/dependencies.d
    : > source/s6/dependencies.d/s7
    mv spare/s1 spare/s2 spare/s3 source/
    echo true > source/s4/up
    echo oneshot > source/s5/type
    rm -r source/s6/dependencies.d
done 2> /dev/null &
changer=$!
odd=0
seen=0
for i in $(seq 200); do
    status=0
    "$program" compile source > out 2> err || status=$?
    case $status in
        0) "$program" db -b out check || odd=$((odd + 1)) ;;
        1) grep -q -x -E -e 'undorc: (NoType|BadType|NoUp) s[0-9]+' -e 'undorc: UnknownIn s6 s7' err || odd=$((odd + 1)) ;;
        111) grep -q -x -E -e 'undorc: Io( s[0-9]+)?' err || odd=$((odd + 1)) ;;
        *) odd=$((odd + 1)) ;;
    esac
    [ "$status" -eq 0 ] || seen=$((seen + 1))
done
touch stop
wait "$changer"
if [ "$seen" -eq 0 ] || [ "$seen" -eq 200 ]; then odd=$((odd + 1)); fi
echo "$odd" > status
: > out
: > err
wants '' ''
judge 'a source directory that changes while it is read (the status is the number of odd answers)' 0

# The database of -b is exchanged while a session goes on: the session goes by the one that it read, and
# the next one is told that its file is that of another.
printf '%b' "$none" > other
cp base now
: > out
echo 0 > status
begins -b now -x none -l kept
tell 'change log'
hear
mv other now
tell 'change net'
hear
wants 'raised log\nok\nraised net root\nok\n' ''
ends 'a database that is exchanged while a session goes on' 0
: > in
runs session -b now -x none -l kept
wants '' 'undorc: OtherDb\n'
judge 'the file of a session on a database that was exchanged' 1
cd ..
rm -r bounds
