# `check`: whether services are where FILE says, by the answers of a controller. program.sh reads this file.
# shellcheck source=../trees.sh
. "$here/trees.sh"
mkdir checking
cd checking
: > in

# The longruns `base`, `web` that needs it, and `side`; the oneshot `once`, which `web` needs, too; the bundle `pair`.
begin_tree
oneshot once 'true'
longrun base
longrun web base once
longrun side
definition bundle pair
printf '%s\n' side once > tree/pair/contents
rm tree/pair/dependencies
"$program" compile tree > made

# A service is where the file NAME.is says, by the name of a way; without it the controller does not know. It notes
# how it was called, and what was in its environment.
cat > ctl <<'END_OF_CTL'
#!/bin/sh
echo "$* $UNDORC_NAME $UNDORC_WAY $UNDORC_LIMIT" >> asked
case $1 in
    up | down) echo "$1" > "$2.is" ;;
    state | check)
        [ -e "$2.is" ] || exit 100
        case $(cat "$2.is") in
            up) exit 0 ;;
            down) exit 3 ;;
            hangs) echo $$ > hung && exec sleep 62.5 ;;
            dies) kill -KILL $$ ;;
            *) exit "$(cat "$2.is")" ;;
        esac
        ;;
    *) exit 100 ;;
esac
END_OF_CTL
chmod 755 ctl
# are NAME=WHERE..: the services are there now
are() {
    rm -f ./*.is asked
    for said; do echo "${said#*=}" > "${said%%=*}.is"; done
}
# asked_of NAME..: the controller was asked once about each of these, in this order, and about nothing else
asked_of() {
    for name; do
        case $name in once | new) word=check ;; *) word=state ;; esac
        echo "$word $name $name $word 5000"
    done > left.wanted
    cp asked left 2> /dev/null || : > left
    rm -f asked
    same "what was asked: $*"
}

# FILE is missing: nothing is live.
missing='undorc: live does not exist: nothing is up\n'
are base=down side=down web=down
expect 0 '' "$missing" '' check -c ./ctl -b made -l live
asked_of base once side web
are base=down side=up web=100
expect 3 'side not live, but up\nweb not live, but unknown\n' "$missing" '' check -c ./ctl -b made -l live
holds 'check makes no file' test ! -e live

# Each answer for what is live and for what is not.
are
expect 0 'raised base once web\nok\n' '' '' change web -c ./ctl -b made -l live
are base=up side=down web=up
expect 0 '' '' '' check -c ./ctl -b made -l live
asked_of base once side web
are base=down side=up web=down
expect 3 'base live, but down\nside not live, but up\nweb live, but down\n' '' '' check -c ./ctl -b made -l live
are base=up side=down web=down
expect 3 'web live, but down\n' '' '' check -c ./ctl -b made -l live
are base=up side=up web=up
expect 3 'side not live, but up\n' '' '' check -c ./ctl -b made -l live
are
expect 3 'base live, but unknown\nside not live, but unknown\nweb live, but unknown\n' '' '' check -c ./ctl -b made -l live
for status in 1 2 4 100 111 124 126 127 255; do
    are base=up side=down "web=$status"
    expect 3 'web live, but unknown\n' '' '' check -c ./ctl -b made -l live
done
are base=up side=dies web=up
expect 3 'side not live, but unknown\n' '' '' check -c ./ctl -b made -l live
are base=dies side=down web=up
expect 3 'base live, but unknown\n' '' '' check -c ./ctl -b made -l live

# A oneshot is asked about by another word. If it is not known, nothing is said of it.
for answer in up:0 down:3 100:0 dies:0; do
    are base=up side=down web=up "once=${answer%:*}"
    line=
    [ "$answer" != down:3 ] || line='once live, but down\n'
    expect "${answer#*:}" "$line" '' '' check -c ./ctl -b made -l live
    asked_of base once side web
done
expect 0 'lowered once web\nok\n' '' '' change -d once -c ./ctl -b made -l live
for answer in up:3 down:0 4:0; do
    are base=up side=down web=down "once=${answer%:*}"
    line=
    [ "$answer" != up:3 ] || line='once not live, but up\n'
    expect "${answer#*:}" "$line" '' '' check -c ./ctl -b made -l live
done
are
expect 0 'raised once web\nok\n' '' '' undo -c ./ctl -b made -l live

# Names: of services and bundles, in any order and more than once. Nothing is asked of others.
are base=down side=up web=down
expect 3 'base live, but down\nweb live, but down\n' '' '' check web base web -c ./ctl -b made -l live
asked_of base web
expect 3 'side not live, but up\n' '' '' check pair -c ./ctl -b made -l live
asked_of once side
expect 0 '' '' '' check once -c ./ctl -b made -l live
asked_of once
are base=down side=down web=up
expect 0 '' '' '' check web pair -c ./ctl -b made -l live
asked_of once side web
expect 1 'refused Unknown nobody\n' '' '' check web nobody other -c ./ctl -b made -l live
asked_of
# A bundle of the session counts, and one that it has no more does not.
"$program" add mine web -b made -l live > setup
"$program" delete pair -b made -l live > setup
are web=down
expect 3 'web live, but down\n' '' '' check mine -c ./ctl -b made -l live
asked_of web
expect 1 'refused Unknown pair\n' '' '' check pair -c ./ctl -b made -l live

# No controller: refused where a longrun would be asked about, after a name that is unknown.
are base=up side=down web=up
expect 1 '' 'undorc: NoController base\n' '' check -b made -l live
expect 1 '' 'undorc: NoController side\n' '' check web side -b made -l live
expect 1 'refused Unknown nobody\n' '' '' check side nobody -b made -l live
expect 0 '' '' '' check once -b made -l live
# One without words says nothing, and one from the environment is asked.
expect 3 'side not live, but unknown\n' '' '' check side -c '' -b made -l live
expect 3 'side not live, but unknown\n' '' '' check side -c ' ' -b made -l live
asked_of
UNDORC_CONTROLLER=./ctl expect 0 '' '' '' check -b made -l live
asked_of base once side web
UNDORC_CONTROLLER=./none expect 0 '' '' '' check -c ./ctl -b made -l live
asked_of base once side web
UNDORC_CONTROLLER=./ctl UNDORC_DB=made UNDORC_LIVE=live expect 0 '' '' '' check web
asked_of web
expect 0 '' '' '' check web -c 'env CALLED=so ./ctl' -b made -l live
asked_of web
# A program that is not there, and a quote. The runner is of no use here, so nothing is said of it.
expect 111 '' 'undorc: Io\n' '' check -c ./none -b made -l live
wrong check -c "'./ctl'" -b made -l live
UNDORC_RUNNER=./none expect 0 '' '' '' check web -c ./ctl -b made -l live
UNDORC_RUNNER="'sh" expect 0 '' '' '' check web -c ./ctl -b made -l live
UNDORC_CONTROLLER=$strange wrong check web -b made -l live
says '^undorc: UNDORC_CONTROLLER is not UTF-8$'
UNDORC_RUNNER=$strange expect 0 '' '' '' check web -c ./ctl -b made -l live
rm -f asked

# Refusals of the texts, and wrong command lines.
"$program" compile "$here/../../contrib/samples" > other 2> setup || printf '%b' "$sample" > other
session_text live > plain
expect 1 '' 'undorc: OtherDb\n' '' check -c ./ctl -b other -l plain
expect 1 '' 'undorc: Bad 0\n' '' check -c ./ctl -b live -l made
mkdir folder
expect 111 '' 'undorc: Io\n' '' check -c ./ctl -b made -l folder
expect 111 '' 'undorc: Io\n' '' check -c ./ctl -b nowhere -l plain
asked_of
# FILE is a history: its own database counts.
told='undorc: other is not the database of this session: undorc update -b other -l live carries it over\n'
expect 0 '' "$told" '' check web -c ./ctl -b other -l live
asked_of web
expect 0 '' '' '' check web -c ./ctl -b nowhere -l live
asked_of web
expect 0 '' '' '' check web -c ./ctl -l live
asked_of web
rm -f asked
wrong check
wrong check -b made
wrong check -l plain web
says '^undorc: this command wants -b, or UNDORC_DB: plain has no database$'
wrong check -c ./ctl -b made -l live -n
wrong check -c ./ctl -b made -l live -r -r
wrong check -c ./ctl -b made -l live -x none
wrong check -c ./ctl -c ./ctl -b made -l live
wrong check 'web
base' -c ./ctl -b made -l live
says '^undorc: a name has no newline$'

# A controller that hangs is waited for five seconds, and then ended; the next longrun is asked about.
are base=up side=hangs web=down
began=$(date +%s)
expect 3 'side not live, but unknown\nweb live, but down\n' '' '' check -c ./ctl -b made -l live
ended=$(date +%s)
holds 'it is waited for five seconds' test $((ended - began)) -ge 5
holds 'and then ended' sh -c '! grep -qs sleep "/proc/$(cat hung)/cmdline"'
asked_of base once side web

# FILE and what is beside it stay as they are, and a lock that another program holds does not count.
are base=up side=down web=up
rm -f live.lock
cp live was
exec 7>> live.lock
flock 7
expect 0 '' '' '' check -c ./ctl -b made -l live
exec 7>&-
rm live.lock
ls live* > left
echo live > left.wanted
same 'check makes no file beside FILE'
holds 'check leaves FILE as it is' cmp -s live was
chmod 444 live
expect 0 '' '' '' check -c ./ctl -b made -l live
chmod 644 live

# The log of a command that was killed is said and not entered; that of one that is under way is said, too.
session_text live > live.run
printf -- '-t 1 -D change web\ntake 1 web\ndone 1 web ok\n' >> live.run
cp live.run run.was
cut='undorc: a command was cut short: the next one enters what it has moved\n'
are base=up side=down web=down
expect 3 'web live, but down\n' "$cut" '' check -c ./ctl -b made -l live
expect 3 'web live, but down\n' "$cut" '' check web -c ./ctl -b made -l live
holds 'check leaves the log as it is' cmp -s live.run run.was
exec 7>> live.lock
flock 7
expect 3 'web live, but down\n' 'undorc: a command is under way\n' '' check -c ./ctl -b made -l live
exec 7>&-
rm live.run live.lock
printf 'no log\n' > live.run
expect 3 'web live, but down\n' '' '' check -c ./ctl -b made -l live
rm live.run

# FILE as an update leaves it: a history, whose own database counts.
oneshot new 'true'
longrun more
"$program" compile tree > next
are
"$program" update -B next -c ./ctl -b made -l live -q > setup 2> setup.err
expect 0 'raised more\nok\n' '' '' change more -c ./ctl -b next -l live
are base=up more=down side=down web=up
other='undorc: made is not the database of this session: undorc update -b made -l live carries it over\n'
expect 3 'more live, but down\n' '' '' check -c ./ctl -b next -l live
asked_of base more new once side web
expect 3 'more live, but down\n' "$other" '' check -c ./ctl -b made -l live
asked_of base more new once side web
expect 0 '' "$other" '' check side web -c ./ctl -b made -l live
asked_of side web
rm -f live
cd ..
