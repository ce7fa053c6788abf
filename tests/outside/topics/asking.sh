# A controller that is asked what became of a service that was on its way when a command was killed.
# program.sh reads this file.
# shellcheck source=../trees.sh
. "$here/trees.sh"
mkdir asking
cd asking

# The longrun `base`, `web` that needs it, `side`, and the oneshot `once`.
begin_tree
longrun base
longrun web base
longrun side
oneshot once 'until [ -e go ]; do sleep 0.02; done'
"$program" compile tree > made

# A longrun is up where its file NAME.up is. A transition of one that the file `hold` names does nothing and waits for
# the file `go`. The file `mode` says how the controller answers.
cat > ctl <<'END'
#!/bin/sh
case $1 in
    up | down)
        if [ -e hold ] && grep -qx "$2" hold; then
            echo "$2" >> begun
            until [ -e go ]; do sleep 0.02; done
            exit
        fi
        if [ "$1" = up ]; then : > "$2.up"; else rm -f "$2.up"; fi
        ;;
    state | check)
        echo "$* $UNDORC_NAME $UNDORC_WAY $UNDORC_LIMIT" >> asked
        case $(cat mode) in
            says) [ -e "$2.up" ] || exit 3 ;;
            fails) exit 1 ;;
            silent) exit 100 ;;
            hangs) echo $$ > hung && exec sleep 61.5 ;;
            dies) kill -KILL $$ ;;
        esac
        ;;
    *) exit 100 ;;
esac
END
chmod 755 ctl

# held COUNT NAMES WORDS..: a command that is killed while these longruns are on their way
held() {
    count=$1
    printf '%s\n' "$2" | tr ' ' '\n' > hold
    shift 2
    rm -f go
    : > begun
    "$program" "$@" -c ./ctl -b made -l live < /dev/null > /dev/null 2>&1 &
    killed=$!
    for turn in $(seq 250); do
        [ "$(wc -l < begun)" -lt "$count" ] || break
        sleep 0.02
    done
    kill -KILL "$killed"
    wait "$killed" 2> /dev/null || true
    : > go
    rm -f hold asked
}
# afresh MODE: nothing is up, and the controller answers so
afresh() {
    rm -f live live.run ./*.up
    echo "$1" > mode
}
# finds WHAT OUTPUT ASKED WORDS..: the next command tells and writes this, and the controller was asked this
finds() {
    title=$1
    printf '%b' "$2$3" > left.wanted
    shift 3
    rm -f asked
    "$program" "$@" -b made -l live < /dev/null > out 2> err || echo "status $?" >> err
    # The program of the killed command may be on its way to its end.
    sed -i '/waits for process/d' err
    cat err out > left
    [ ! -e asked ] || sort asked >> left
    same "$title"
}
web='state web web state 5000\n'

# It was to come up: it did, it did not, or that is not known.
for mode in says fails silent dies; do
    afresh "$mode"
    held 1 web change web
    : > web.up
    if [ "$mode" = says ]; then report='  raised base web\n'; else report='  raised base\n  failed web\n'; fi
    finds "a longrun that came up, where the controller $mode" "undorc: Recovered\n${report}ok\n" "$web" change -c ./ctl
done
afresh says
held 1 web change web
finds 'a longrun that did not come up' 'undorc: Recovered\n  raised base\n  failed web\nok\n' "$web" change -c ./ctl

# It was to go down: it did, or it did not.
afresh says
expect 0 'raised base web\nok\n' '' '' change web -c ./ctl -b made -l live
held 1 web change -d base
rm web.up
finds 'a longrun that went down' 'undorc: Recovered\n  lowered web\n  untried base\nok\n' "$web" change -c ./ctl
expect 0 'raised web\nok\n' '' '' undo -c ./ctl -b made -l live
held 1 web change -d base
finds 'a longrun that did not go down' 'undorc: Recovered\n  failed web\n  blocked base\nok\n' "$web" change -c ./ctl
expect 0 'live base web\nok\n' '' '' live -b made -l live

# An undo is asked about in the same way, and the next one goes on from what was found.
held 1 web undo
rm web.up
finds 'an undo that was killed' 'undorc: Recovered\n  lowered web\n  untried base\nlowered base\nok\n' "$web" undo -c ./ctl

# Several at a time, of which some have come to their end; and no more is asked once that is entered.
afresh says
held 2 'base side' change web side
: > side.up
finds 'two at a time' 'undorc: Recovered\n  raised side\n  failed base\n  blocked web\nok\n' \
    'state base base state 5000\nstate side side state 5000\n' change -c ./ctl
finds 'nothing is asked twice' 'ok\n' '' change -c ./ctl

# A restart that is given again.
afresh says
expect 0 'raised base web\nok\n' '' '' change web -c ./ctl -b made -l live
held 1 web restart web
rm web.up
finds 'a restart given again' 'undorc: Recovered\n  lowered web\nraised web\nok\nlowered web\nok\nraised web\nok\n' \
    "$web" restart web -c ./ctl

# A oneshot is asked about by another word.
once='check once once check 5000\n'
for word in failed raised; do
    afresh says
    rm -f go
    "$program" change once -c ./ctl -b made -l live < /dev/null > /dev/null 2>&1 &
    killed=$!
    for turn in $(seq 250); do
        ! grep -q '^take 1 once$' live.run 2> /dev/null || break
        sleep 0.02
    done
    kill -KILL "$killed"
    wait "$killed" 2> /dev/null || true
    : > go
    [ "$word" = failed ] || : > once.up
    finds "a oneshot that $word" "undorc: Recovered\n  $word once\nok\n" "$once" change -c ./ctl
done

# Nothing is asked with -x, without a controller, and of a log that ends in a part of a line.
for words in 'change -x none' 'seal' 'change' 'change -c ./ctl'; do
    afresh says
    held 1 web change web
    : > web.up
    if [ "$words" = 'change -c ./ctl' ]; then
        { sed '/^ *$/d' live.run; printf 'done 1'; } > torn
        mv torn live.run
    fi
    # Words are separated by spaces.
    # shellcheck disable=SC2086
    finds "nothing is asked: $words" 'undorc: Recovered\n  raised base\n  failed web\nok\n' '' $words
done

# A controller that is not there, for a command that starts none; and one that takes too long.
afresh says
held 1 web change web
: > web.up
export UNDORC_CONTROLLER=./none
finds 'a controller that is missing' 'undorc: Recovered\n  raised base\n  failed web\nok\n' '' seal
unset UNDORC_CONTROLLER
afresh hangs
held 1 web change web
: > web.up
began=$(date +%s)
finds 'a controller that hangs' 'undorc: Recovered\n  raised base\n  failed web\nok\n' "$web" change -c ./ctl
ended=$(date +%s)
holds 'it is waited for five seconds' test $((ended - began)) -ge 5
holds 'and then ended' sh -c '! grep -qs sleep "/proc/$(cat hung)/cmdline"'

# A command that starts nothing, as seal, asks the controller of the environment.
afresh says
held 1 web change web
: > web.up
export UNDORC_CONTROLLER=./ctl
finds 'a seal asks, too' 'undorc: Recovered\n  raised base web\nok\n' "$web" seal
unset UNDORC_CONTROLLER
cd ..
