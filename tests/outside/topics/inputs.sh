# How much of an input is read, texts that are cut short, and inputs at their bounds. program.sh reads this file.
printf '%b' "$sample" > base

# A text that is cut short is bad at its last line, wherever it is cut, by the reader of a front and by that of a whole
# text; a script counts with the line above it.
cut=0
at=0
end=0
# shellcheck disable=SC2094 # nothing writes what is read
while read -r line; do
    case $line in
        true | '') ;;
        *) at=$end ;;
    esac
    next=$((end + ${#line} + 1))
    for length in $(seq "$end" $((next - 1))); do
        head -c "$length" base > in
        for words in plan 'db -b in check'; do
            ended=0
            # shellcheck disable=SC2086
            "$program" $words < in > out 2> err || ended=$?
            [ "$ended $(cat out && firsts err)" = "1 undorc: Bad $at" ] || cut=$((cut + 1))
        done
    done
    end=$next
done < base
echo "$cut" > status
: > out
: > err
wants '' ''
judge 'texts that are cut short (the status is the number of those told otherwise)' 0

# A query of a database in a file reads no input.
printf 'left' > in
echo 0 > status
{ "$program" db -b base contents site 2> err || echo $? > status; cat; } < in > out
wants 'web\nleft' ''
judge 'undorc db -b base contents site, and the input behind it' 0
echo 0 > status
"$program" db contents site -b base > out 2> err <&- || echo $? > status
wants 'web\n' ''
judge 'undorc db contents site -b base, without an input' 0

# leaves STATUS FAULT WORDS..: a command that is refused before its own input, with the database in a file, leaves the input
# as it is: the shell reads it afterwards. It ends at once where the input is open and nothing comes of it.
printf 'undorc-db 1\nservices' > short
printf '%b' "$(with 'needs net' 'needs nat')" > dangling
printf '%b' "$sample# note\n" > longer
mkfifo still
leaves() {
    wants 'live\nleft' "undorc: $2\n"
    wanted=$1
    shift 2
    echo 0 > status
    printf 'live\nleft' | { "$program" "$@" 2> err || echo $? > status; cat; } > out
    judge "undorc $*, and the input behind it" "$wanted"
    : > out.wanted
    echo 0 > status
    timeout 20 "$program" "$@" <> still > out 2> err || echo $? > status
    judge "undorc $*, on an open input of which nothing comes" "$wanted"
}
leaves 1 'Unknown nosuch' session -b base -x up:nosuch
leaves 1 'Unknown nosuch' session -x up:net,down:nosuch -b base
leaves 1 'Bad 12' session -b short -x up:nosuch
leaves 1 Dangling session -b dangling -x up:nosuch
leaves 1 'Bad 330' session -b longer -x up:nosuch
leaves 111 Io session -b nowhere -x up:nosuch
leaves 111 Io session -b nowhere
leaves 1 Dangling session -b dangling -v -c true
for words in 'session -x none' 'plan' 'plan -u web' 'plan -Dp nosuch' 'replay' 'db check' 'db type nosuch'; do
    # shellcheck disable=SC2086
    {
        leaves 1 'Bad 12' $words -b short
        leaves 1 Dangling $words -b dangling
        leaves 1 'Bad 330' $words -b longer
        leaves 1 'Bad 0' $words -b /dev/null
        leaves 111 Io $words -b nowhere
        leaves 111 Io $words -b .
        leaves 111 Io $words -b ''
    }
done

# many NUMBER BYTE
many() {
    head -c "$1" /dev/zero | tr '\0' "$2"
}

# line_of STATUS OUTPUT FAULT WHAT: lines at their bound, which is counted without the newline, are those in `text`, after
# the database and with the database in a file.
line_of() {
    for words in '' '-b base'; do
        if [ -n "$words" ]; then cp text in; else cat base text > in; fi
        wants "$2" "$3"
        echo 0 > status
        # shellcheck disable=SC2086
        timeout 60 "$program" session -x none $words < in > out 2> err || echo $? > status
        judge "$4 (session -x none $words)" "$1"
    done
}
{ echo '-u change log'; many 65536 '#'; echo; echo live; } > text
line_of 0 'raised log\nok\nlive log\nok\n' '' 'a comment of 65,536 bytes'
{ echo '-u change log'; many 65536 x; echo; echo live; } > text
line_of 0 'raised log\nok\nrefused BadLine\nlive log\nok\n' '' 'a wrong line of 65,536 bytes'
{ echo '-u change log'; many 65532 ' '; echo live; echo undo; } > text
line_of 0 'raised log\nok\nlive log\nok\nlowered log\nok\n' '' 'a line of 65,536 bytes, most of them blanks'
{ printf '%s' '-u change'; many 65524 x | sed 's/xxxx/ log/g'; echo; many 65536 '#'; } > text
line_of 0 'raised log\nok\n' '' 'a change of 16,381 names, and a last line of 65,536 bytes'
{ echo '-u change log'; many 65537 '#'; echo; echo live; } > text
line_of 111 'raised log\nok\n' 'undorc: TooLong\n' 'a comment of 65,537 bytes'
{ echo '-u change log'; echo live; many 65533 ' '; echo live; } > text
line_of 111 'raised log\nok\nlive log\nok\n' 'undorc: TooLong\n' 'a line of 65,537 bytes'
{ echo '-u change log'; many 65537 ' '; } > text
line_of 111 'raised log\nok\n' 'undorc: TooLong\n' 'a last line of 65,537 bytes'
many 65537 x > text
line_of 111 '' 'undorc: TooLong\n' 'nothing but a line of 65,537 bytes'

# stays WHAT: what is up and kept after an input that is too long: the session after the lines in front of it
stays() {
    printf '%b' 'undorc-live 2\nservices db log net root web\nbound 1024\nup\nbundle site web\nnow root\nbundle site web\nend\n' |
        cmp -s - kept || echo 'another file' >> out
    "$program" live -b base -l kept < /dev/null >> out 2>> err || echo "live: status $?" >> err
    judge "$1" 111
    rm -f kept kept.lock
}
{ echo '-u change root'; many 65537 '#'; echo; echo '-u change log'; } > in
wants 'raised root\nok\nlive root\nok\n' 'undorc: TooLong\n'
runs session -b base -x none -l kept
stays 'what is up after a line of 65,537 bytes'

may_be_unchecked 'inputs of 16,777,216 bytes' || return 0

# bounded STATUS OUTPUT FAULT WORDS..: an input at its bound is the one in `whole`. One byte more is the last that is taken,
# and what is not read is left.
bounded() {
    wants "$2" "$3"
    wanted=$1
    shift 3
    echo 0 > status
    { timeout 120 "$program" "$@" 2> err || echo $? > status; cat; } < whole > out
    judge "undorc $*, of an input of $(wc -c < whole) bytes" "$wanted"
}
comments() {
    yes '# a comment' 2> /dev/null | head -c "$1"
}
many 16777216 '\n' > whole
bounded 1 '' 'undorc: Bad 0\n' plan
bounded 1 '' 'undorc: Bad 0\n' replay
bounded 1 '' 'undorc: Bad 0\n' change web -x none
bounded 0 '' '' session -b base -x none
printf '\n12345' >> whole
bounded 111 12345 'undorc: TooLong\n' plan
bounded 111 12345 'undorc: TooLong\n' db check
bounded 111 12345 'undorc: TooLong\n' replay
bounded 111 12345 'undorc: TooLong\n' change web -x none
bounded 111 12345 'undorc: TooLong\n' session -b base -x none
bounded 111 12345 'undorc: TooLong\n' session -x up:nosuch
{ echo '-u change log'; comments 16777196; echo; echo live; } > whole
bounded 0 'raised log\nok\nlive log\nok\n' '' session -b base -x none
{ echo '-u change log'; comments 16777202; echo; printf 12345; } > whole
bounded 111 'raised log\nok\n12345' 'undorc: TooLong\n' session -b base -x none
{ cat base; echo '-u change log'; comments 16776866; echo; echo live; } > whole
bounded 0 'raised log\nok\nlive log\nok\n' '' session -x none
{ cat base; echo '-u change log'; comments 16776872; echo; printf 12345; } > whole
bounded 111 '12345' 'undorc: TooLong\n' session -x none

{ echo '-u change root'; comments 16777202; echo; echo '-u change log'; } > in
wants 'raised root\nok\nlive root\nok\n' 'undorc: TooLong\n'
runs session -b base -x none -l kept
stays 'what is up after an input of more than 16,777,216 bytes'

# A short piece comes first, so that the last one, with which the bound is passed, holds a whole line.
{ comments 16777184; echo; echo '-u change log'; printf 123456789; } > whole
wants 'raised net root\nok\nraised log\nok\n' 'undorc: TooLong\n'
echo 0 > status
{ echo '-u change net'; sleep 0.2; cat whole; } 2> /dev/null | { timeout 120 "$program" session -b base -x none > out 2> err || echo $? > status; }
judge 'an input that is too long, whose last whole line is a change' 111
rm whole
wants '' 'undorc: TooLong\n'
echo 0 > status
yes '# a comment' 2> /dev/null | { timeout 60 "$program" session -b base -x none > out 2> err || echo $? > status; }
judge 'lines without end' 111
echo 0 > status
{ cat base; yes live 2> /dev/null; } | { timeout 60 "$program" session -x none > out 2> err || echo $? > status; }
judge 'a database and lines without end behind it' 111
