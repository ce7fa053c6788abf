# Sessions whose lines come otherwise than one by one, long ones, and one on what was compiled just
# before. program.sh reads this file.
printf '%b' "$sample" > base

# A session on what is compiled, whose bundle is empty.
mkdir -p source/nil
printf bundle > source/nil/type
: > source/nil/contents
wants 'ok\nbundle nil\nok\n' ''
echo 1 > status
{ "$program" compile source; printf -- '-u change nil\nbundles\n'; } | "$program" session -x none > out 2> err && echo 0 > status
judge 'a session on what is compiled, whose bundle is empty' 0

# Pieces of every size.
lines='-u change site\n-d change net\n-u change site\n-d dry root\n-d change root\n-u change site\n-Da change\nundo\n'
lines="$lines"'-u change site\n-pu change log\n'
answers='raised db log net root web\nok\nlowered db net web\nok\nraised db net web\nok\nlower db net web\nkept root\nok\n'
answers="$answers"'lowered db net web\nkept root\nok\nraised db net web\nok\nlowered db log net root web\nok\n'
answers="$answers"'raised db log net root web\nok\nok\nlowered db net web\nkept root\nok\n'
wants "$answers" ''
for bytes in 1 7 4096; do
    printf '%b' "$lines" > in
    echo 0 > status
    { dd "bs=$bytes" < in 2> /dev/null; } | { "$program" session -b base -x none > out 2> err || echo $? > status; }
    judge "a session whose lines come in pieces of $bytes bytes" 0
done

# Writes a part of a text.
part() {
    (printf '%b' "$1" >&3) 2> /dev/null || true
}

# Talks whose lines come otherwise than one by one.
begins -b base -x none
part '-u change log\nlive\n\nfrob\nundo\n'
hear
hear
hear
hear
tell live
hear
wants 'raised log\nok\nlive log\nok\nrefused BadLine\nlowered log\nok\nlive\nok\n' ''
ends 'several lines at once' 0
begins -b base -x none
part '-u cha'
sleep 0.2
part 'nge l'
sleep 0.2
part 'og\nli'
hear
sleep 0.2
part 've\n'
hear
wants 'raised log\nok\nlive log\nok\n' ''
ends 'lines in parts' 0
begins -b base -x none
part '# a comment'
sleep 0.2
part ' in parts\nlive'
sleep 0.2
wants 'live\nok\n' ''
ends 'an input that ends in a line' 0
begins -b base -x none
wants '' ''
ends 'an input that ends before a line' 0
begins -b base -x none
tell live
hear
exec 4<&-
tell live
exec 4< /dev/null
wants 'live\nok\n' 'undorc: Write\n'
ends 'answers that nobody reads any more' 111

# Many lines on 200 services, each of which adds a state.
awk 'BEGIN {
    printf "undorc-db 1\nservices 200\n"
    for (i = 0; i < 200; i++) printf "service s%03d oneshot plain 0 0\nneeds\nup 0\n\ndown -\n", i
    printf "bundles 0\nend\n"
}' > many
awk 'BEGIN {
    for (i = 0; i < 10000; i++) printf "-%s change s%03d\n", i % 2 ? "d" : "u", int(i / 2) % 200
    print "journal"
}' > in
awk 'BEGIN {
    for (i = 0; i < 10000; i++)
        printf "%s s%03d\nok\n", i % 2 ? "lowered" : "raised", int(i / 2) % 200
    print "at 10000 of 10001"
    for (i = 0; i < 10000; i++) printf "%d %ss%03d\n", i, i % 2 ? "-" : "+", int(i / 2) % 200
    print "ok"
}' > out.wanted
: > err.wanted
runs session -b many -x none -n 10001
judge '10,000 lines, and the journal of 10,001 states' 0

# A line of 1,000 states, in which the bits of a state's number are live, undone to the first and
# redone to the last.
awk 'BEGIN {
    printf "undorc-db 1\nservices 10\n"
    for (i = 0; i < 10; i++) printf "service b%d longrun plain 0 0\nneeds\nproducer -\n", i
    printf "bundles 0\nend\n"
}' > many
awk 'function bit(number, i) { return int(number / 2 ^ i) % 2 }
    function names(word, from, to,  i, text) {
        for (i = 0; i < 10; i++) if (bit(to, i) && !bit(from, i)) text = text " b" i
        if (text != "") print word text > "out.wanted"
    }
    function moves(line, from, to) {
        print line > "in"
        names("lowered", to, from)
        names("raised", from, to)
        print "ok" > "out.wanted"
    }
    function shows(number,  i, text) {
        for (i = 0; i < 10; i++) if (bit(number, i)) text = text " b" i
        print "live" > "in"
        print "live" text "\nok" > "out.wanted"
    }
    BEGIN {
        for (number = 1; number < 1000; number++) {
            text = ""
            for (i = 0; i < 10; i++) if (bit(number, i)) text = text " b" i
            moves("-up change" text, number - 1, number)
        }
        shows(999)
        for (number = 999; number > 0; number--) {
            moves("undo", number, number - 1)
            if (number == 501) shows(500)
        }
        shows(0)
        for (number = 1; number < 1000; number++) {
            moves("redo", number - 1, number)
            if (number == 500) shows(500)
        }
        shows(999)
    }' < /dev/null
runs session -b many -x none
judge 'a line of 1,000 states, undone and redone' 0
