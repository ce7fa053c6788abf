# Sessions that start real scripts. program.sh reads this file.
# shellcheck source=../trees.sh
. "$here/trees.sh"

# How a script ends, and what -P reports of it. Each is a change of its own.
begin_tree
oneshot good 'exit 0'
oneshot empty ''
oneshot three 'exit 3'
oneshot most 'exit 255'
oneshot killed 'kill -9 $$'
oneshot late 'exit 124'
oneshot shut 'exit 126'
oneshot missing 'exit 127'
answers='raised empty good\nfailed killed late missing most shut three\nok\n'
all='change empty good killed late missing most shut three\n'
# told_by WORKERS EVENT..: what -P reports of that change, by so many: NAME:HOW of each
told_by() {
    workers=$1
    shift
    session "$answers" '' "$all" -w "$workers"
    for event; do printf 'up %s: %s\nup %s: started\n' "${event%%:*}" "${event#*:}" "${event%%:*}"; done | sort > left.wanted
    "$program" session -b made -P -w "$workers" < in 2> left > out
    timeless left
    sort -o left left
    same "what is told of scripts that end so, by $workers: $*"
}
for workers in 1 2 64; do
    told_by "$workers" empty:ok good:ok 'killed:failed 255' 'late:failed 124' 'missing:failed 127' \
        'most:failed 255' 'shut:failed 126' 'three:failed 3'
done

# Under a limit some statuses tell that a script took too long, or could not be started.
for name in good empty three most killed late shut missing; do limit $name 5000; done
for workers in 1 2 64; do
    told_by "$workers" empty:ok good:ok 'killed:failed 255' 'late:timed out' 'missing:not started' \
        'most:failed 255' 'shut:not started' 'three:failed 3'
done

# Limits, rounded up to seconds. At one a script is asked to end, and some seconds later it is ended.
begin_tree
oneshot loop 'while :; do :; done'
oneshot sleeper 'sleep 10; true'
oneshot tidy "trap 'echo undone > tidied; exit 0' TERM; while :; do sleep 0.1; done"
oneshot deaf "echo \$\$ > deaf; trap '' TERM; while :; do sleep 0.1; done"
for name in loop sleeper tidy; do limit $name 1; done
limit deaf 1000
for workers in 1 64; do
    rm -f tidied deaf
    session 'failed deaf loop sleeper tidy\nok\n' '' 'change deaf loop sleeper tidy\n' -w "$workers"
    holds "a script that is asked to end may tidy up, by $workers" test -s tidied
    holds "a script that ignores it is ended, by $workers" sh -c '! kill -0 "$(cat deaf)" 2> /dev/null'
done
# A limit ends what a script has started, too, also where that ignores TERM and the script does not.
begin_tree
oneshot nested 'sleep 61 & echo $! > inner; sleep 62 & wait'
oneshot stubborn "sh -c 'trap \"\" TERM; echo \$\$ > ignoring; while :; do sleep 0.1; done' & wait"
for name in nested stubborn; do limit $name 1; done
# gone FILE: the process of this number has ended, though nobody may have waited for it
gone() {
    case $(sed -n 's/^State:[[:space:]]*//p' "/proc/$(cat "$1")/status" 2> /dev/null) in '' | Z*) ;; *) return 1 ;; esac
}
for workers in 1 2; do
    rm -f inner ignoring
    session 'failed nested stubborn\nok\n' '' 'change nested stubborn\n' -w "$workers"
    holds "a limit ends what a script has started, by $workers" gone inner
    holds "also what ignores TERM, by $workers" gone ignoring
done
begin_tree
oneshot loop 'while :; do :; done'
limit loop 1
tells 'failed loop\nok\nrefused NothingToUndo\n' 'up loop: started\nup loop: timed out\n' 'change loop\nundo\n'

# A runner that can't be started, and no controller: on the sample nothing comes up.
printf '%b' "$sample" > base
expect 0 'failed log root\nblocked db net web\nok\n' '' '-u change site\n' session -b base -r /nonexistent
rm base

# The limit of a line: what is under way when it is reached ends, and nothing more is tried.
begin_tree
oneshot first 'sleep 0.3'
down first 'sleep 0.3'
oneshot second 'sleep 0.3' first
down second 'sleep 0.3'
for workers in 1 4; do
    session 'raised first\nuntried second\nok\nlowered first\nok\nraised first second\nok\nlowered second\nuntried first\nok\nraised second\nok\n' '' \
        '-t 100 change second\nundo\nchange second\n-t 100 undo\n-t 60000 change second\n' -w "$workers"
done

# A child that a script leaves behind is not waited for, though it holds the script's output.
begin_tree
oneshot leaves 'sleep 50 & echo $! > child; exit 0'
down leaves 'sleep 50 & echo $! >> child; exit 0'
for limit in 0 3000; do
    limit leaves $limit
    for workers in 1 2 64; do
        session 'raised leaves\nok\nlowered leaves\nok\n' '' 'change leaves\nundo\n' -w "$workers"
        holds "a child is left on each way, by $workers under limit $limit" test "$(wc -l < child)" -eq 2
        # shellcheck disable=SC2094 # nothing writes what is read
        while read -r child; do
            holds "a child that is left lives on, by $workers under limit $limit" kill -0 "$child"
            kill "$child"
        done < child
    done
done

# What a script writes goes nowhere, and what it reads is nothing: lines of the session stay its own. Under -P what it writes
# goes where this program's errors go; under -v it does not.
begin_tree
oneshot writes 'head -c 100000000 /dev/zero; head -c 100000000 /dev/zero >&2'
oneshot reads 'wc -c > count'
oneshot pipes 'yes | head -n 1'
oneshot says 'echo out; echo err >&2'
for workers in 1 64; do
    session 'raised pipes reads writes\nok\nlive pipes reads writes\nok\n' '' 'change pipes reads writes\nlive\n' -w "$workers"
    echo 0 > left.wanted
    tr -d ' ' < count > left
    same "what a script reads, by $workers"
done
session 'raised says\nok\n' '' 'change says\n'
session 'raised says\nok\n' '' 'change says\n' -v
tells 'raised says\nok\n' 'up says: started\nout\nerr\nup says: ok\n' 'change says\n'

# Where it runs, in which environment, and that no other file is open there.
begin_tree
oneshot tells 'echo "$PWD $WORD $0 $#" > told; ! (true <&7) 2> /dev/null'
"$program" compile tree > made
wants 'raised tells\nok\n' ''
echo 'change tells' > in
# shellcheck disable=SC2094 # nothing writes it
(WORD=x && export WORD && runs session -b made) 7< made
judge 'a session that starts a script' 0
echo "$PWD x /bin/sh 0" > left.wanted
cp told left
same 'directory, environment and words of a script'

# The runner's words, after which the text is one more; without one, or where it can't be started, nothing is.
begin_tree
oneshot one 'first  line
second'
cat > note <<'END'
#!/bin/sh
for word; do printf '<%s>' "$word"; done >> noted
END
chmod +x note
printf '<a><b><first  line\nsecond\n>' > left.wanted
for words in './note a b' ' ./note  a	b ' '/bin/sh ./note a b'; do
    rm -f noted
    session 'raised one\nok\n' '' 'change one\n' -r "$words"
    cp noted left
    same "the words of the runner '$words'"
done
for limit in 0 1000; do
    limit one $limit
    for words in /nonexistent "$PWD/made" "$PWD"; do
        # With a limit it is setsid that starts the program, and says why it can't.
        why='Permission denied (os error 13)'
        [ "$words" != /nonexistent ] || why='No such file or directory (os error 2)'
        why="undorc: one: $words can't be started: $why\\n"
        [ "$limit" -eq 0 ] || why=
        tells 'failed one\nok\n' "up one: started\\n${why}up one: not started\\n" 'change one\n' -r "$words"
    done
    for words in '' ' '; do
        tells 'failed one\nok\n' 'up one: not started\n' 'change one\n' -r "$words"
    done
done

# What is missing is done without a start.
begin_tree
oneshot one 'echo up >> log'
rm -f log
session 'raised one\nok\nlowered one\nok\n' '' 'change one\nundo\n'
tells 'failed one\nok\nok\n' \
    "up one: started\\nundorc: one: /nonexistent can't be started: No such file or directory (os error 2)\\nup one: not started\\n" \
    'change one\n-d change one\n' -r /nonexistent
tells 'raised one\nok\nlowered one\nok\n' 'up one: started\nup one: ok\ndown one: ok\n' 'change one\nundo\n'
down one 'exit 5'
tells 'raised one\nok\nfailed one\nok\n' 'up one: started\nup one: ok\ndown one: started\ndown one: failed 5\n' 'change one\nundo\n'

# The shell goes on after a line that fails, but for its last one; with -e it does not.
begin_tree
oneshot one 'false
true'
session 'raised one\nok\n' '' 'change one\n'
session 'raised one\nok\n' '' 'change one\n' -r '/bin/sh -c'
tells 'failed one\nok\n' 'up one: started\nup one: failed 1\n' 'change one\n' -r '/bin/sh -ec'

# The controller moves longruns; none by itself.
begin_tree
longrun db
longrun web db
for words in './note x' '/bin/sh ./note x'; do
    rm -f noted
    session 'raised db web\nok\nlowered db web\nok\n' '' 'change web\nundo\n' -c "$words"
    printf '<x><up><db><x><up><web><x><down><web><x><down><db>' > left.wanted
    cp noted left
    same "the words of the controller '$words'"
done
tells 'failed db\nblocked web\nok\n' 'up db: not started\n' 'change web\n'
tells 'failed db\nblocked web\nok\n' 'up db: not started\n' 'change web\n' -c ' '
tells 'failed db\nblocked web\nok\n' 'up db: started\nup db: failed 1\n' 'change web\n' -c false -r true
cat > control <<'END'
#!/bin/sh
case $1 in
    up) sleep 50 & echo $! > "$2.pid" ;;
    down) kill "$(cat "$2.pid")" && rm "$2.pid" ;;
esac
END
session 'raised db web\nok\nlive db web\nok\nlowered db web\nok\n' '' 'change web\nlive\nundo\n' -c 'sh ./control'
holds 'a controller that ends what it started' sh -c '! ls ./*.pid 2> /dev/null'

# With no words at all.
expect 0 'live\nok\n' '' "${sample}live\n" session
expect 0 'raised net root\nok\n' '' "${sample}change net\n" session -w 4
expect 0 'raised net root\nfailed db log\nblocked web\nok\n' '' "${sample}change site\n" session

# With -x nothing is started, whatever -r and -c hold; how each transition ends is reported under -P all the same, at the
# moment 0. Under -v those are reported that do not succeed, and no others.
begin_tree
oneshot one 'touch started'
longrun two one
told='undorc:    0.000 s  up one: ok\nundorc:    0.000 s  up two: ok\n'
session 'raised one two\nok\nfailed two\nblocked one\nok\n' "${told}undorc:    0.000 s  down two: failed 1\n" \
    'change two\nundo\n' -P -x down:two
session 'raised one two\nok\nfailed two\nblocked one\nok\n' 'undorc:    0.000 s  down two: failed 1\n' \
    'change two\nundo\n' -v -x down:two
session 'raised one two\nok\nfailed two\nblocked one\nok\n' '' 'change two\nundo\n' -x down:two
session 'raised one two\nok\n' "$told" 'change two\n' -x none -r ./note -c ./note -P -v
session 'raised one two\nok\n' '' 'change two\n' -x none -v
holds 'with -x nothing is started' test ! -e started

# Two that wait for each other: the number of -w is the one that serves.
begin_tree
meets() {
    echo "touch come.$1; n=0; while [ ! -e come.$2 ]; do n=\$((n + 1)); [ \$n -le $3 ] || exit 9; sleep 0.05; done"
}
oneshot a "$(meets a b 40)"
oneshot b "$(meets b a 40)"
for workers in 2 3 64; do
    rm -f come.*
    session 'raised a b\nok\n' '' 'change a b\n' -w "$workers"
done
rm -f come.*
tells 'raised b\nfailed a\nok\n' 'up a: started\nup a: failed 9\nup b: started\nup b: ok\n' 'change a b\n' -w 1
begin_tree
for i in 1 2 3 4 5; do
    oneshot "s$i" "touch come.$i; n=0
        while [ \$(ls come.* | wc -l) -lt 5 ]; do n=\$((n + 1)); [ \$n -le 40 ] || exit 9; sleep 0.05; done"
done
rm -f come.*
session 'raised s1 s2 s3 s4 s5\nok\n' '' 'change s1 s2 s3 s4 s5\n' -w 5

# One that goes down and one that comes up wait for each other.
begin_tree
oneshot a true
down a "$(meets a b 40)"
oneshot b "$(meets b a 40)"
for workers in 2 64; do
    rm -f come.*
    session 'raised a\nok\nlowered a\nraised b\nok\n' '' '-u change a\n-p change b\n' -w "$workers"
done
rm -f come.*
tells 'raised a\nok\nraised b\nfailed a\nok\n' 'up a: started\nup a: ok\ndown a: started\ndown a: failed 9\nup b: started\nup b: ok\n' \
    '-u change a\n-p change b\n' -w 1

# 64 that come up wait for each other.
begin_tree
all=$(seq 10 73 | sed 's/^/s/' | tr '\n' ' ')
all=${all% }
for name in $all; do
    oneshot "$name" "touch come.$name; n=0
        until [ -e come.all ]; do n=\$((n + 1)); [ \$n -le 400 ] || exit 9; sleep 0.05
            set -- come.s*; [ \$# -lt 64 ] || touch come.all; done"
done
rm -f come.*
session "raised $all\nok\n" '' "change $all\n" -w 64

# 300 oneshots with drawn needs: each begins after all that it needs have ended, and on the way down before.
awk 'BEGIN {
    srand(7)
    print "undorc-db 1\nservices 300"
    for (i = 0; i < 300; i++) {
        printf "service s%03d oneshot plain %d %d\nneeds", i, 30000 * (rand() < 0.5), 30000 * (rand() < 0.5)
        for (j = 0; j < i; j++) if (rand() * i < 1.5) { printf " s%03d", j; printf "s%03d s%03d\n", i, j > "needs" }
        begin = "echo begin s" sprintf("%03d", i) " >> log"
        end = "echo end s" sprintf("%03d", i) " >> log"
        text = begin "; sleep 0.0" int(rand() * 3) "; " end
        printf "\nup %d\n%s\ndown %d\n%s\n", length(text), text, length(text), text
        names = names sprintf(" s%03d", i)
    }
    print "bundles 0\nend"
    print "raised" names "\nok\nlowered" names "\nok" > "out.wanted"
    print "change" names "\nundo" > "in"
}' > made
: > err.wanted
for workers in 1 3 64; do
    rm -f log
    runs session -b made -w "$workers"
    judge "300 scripts with drawn needs, by $workers" 0
    awk 'FNR == NR { first[NR] = $1; second[NR] = $2; count = NR; next }
        { at[$1, $2, ++seen[$1, $2]] = FNR; lines = FNR }
        END {
            print lines
            for (i = 1; i <= count; i++) {
                if (at["begin", first[i], 1] < at["end", second[i], 1]) print first[i], "began too soon"
                if (at["begin", second[i], 2] < at["end", first[i], 2]) print second[i], "went too soon"
            }
        }' needs log > left
    echo 1200 > left.wanted
    same "the order of 300 scripts, by $workers"
done

# A reader that goes away, and a standard error that is closed or full.
begin_tree
oneshot one 'exit 3'
"$program" compile tree > made
printf 'change one\n' > in
for closed in '2>&-' '2> /dev/full'; do
    wants 'failed one\nok\n' ''
    : > err
    echo 0 > status
    eval "\"\$program\" session -P -b made < in > out $closed" || echo $? > status
    judge "a session that has no standard error ($closed)" 0
done
begins -b made
tell 'change one'
hear
exec 4<&-
tell 'change one'
exec 4< /dev/null
wants 'failed one\nok\n' 'undorc: Write\n'
ends 'a session that starts scripts, whose answers nobody reads' 111

# Where a worker can't be started no script is run: an address space has room for some of 64 stacks.
# No more workers work than there are services to move, and the session is one of them.
may_be_unchecked 'memory for few workers' || return 0
begin_tree
all=$(seq 64 | sed 's/^/s/' | LC_ALL=C sort | tr '\n' ' ')
all=${all% }
for name in $all; do oneshot "$name" 'touch started'; done
"$program" compile tree > made
printf 'change %s\nlive\n' "$all" > in
rm -f started
wants '' 'undorc: NoThread\n'
echo 0 > status
# shellcheck disable=SC3045 # dash has it, and bash
(ulimit -v 200000 && exec "$program" session -b made -w 64 < in > out 2> err) || echo $? > status
# The line after the fault says how many there is room for.
number=$(sed -n 's/^  \([0-9]*\) workers can be started now (-w \1)$/\1/p' err)
judge 'a session that lacks room for 64 workers' 111
holds 'without its workers it starts nothing' test ! -e started
holds 'it says how many there is room for' test "${number:-0}" -gt 1 -a "${number:-64}" -lt 64
wants "raised $all\nok\nlive $all\nok\n" ''
echo 0 > status
# shellcheck disable=SC3045 # dash has it, and bash
(ulimit -v 200000 && exec "$program" session -b made -w "${number:-64}" < in > out 2> err) || echo $? > status
judge 'and has room for so many' 0
echo 0 > status
# shellcheck disable=SC3045 # dash has it, and bash
(ulimit -v 200000 && exec "$program" session -b made -w 1 < in > out 2> err) || echo $? > status
judge 'and has room for one' 0
printf 'change s1\nlive\n' > in
wants 'raised s1\nok\nlive s1\nok\n' ''
echo 0 > status
# shellcheck disable=SC3045 # dash has it, and bash
(ulimit -v 200000 && exec "$program" session -b made -w 64 < in > out 2> err) || echo $? > status
judge 'and for a change of one by any number' 0
