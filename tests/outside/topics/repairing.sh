# `check -r`: what is elsewhere than FILE says is brought there. program.sh reads this file.
# shellcheck source=../trees.sh
. "$here/trees.sh"
mkdir repairing
cd repairing
: > in

# The longruns `base`, `web` that needs it and the oneshot `once`, `top` that needs `web`, and `side`.
begin_tree
longrun base
oneshot once 'echo up once >> moved' base
down once 'echo down once >> moved'
longrun web base once
longrun top web
longrun side
"$program" compile tree > made

# A service is where the file NAME.is says; without it the controller does not know. What moves is noted. One whose
# file NAME.bad is there does not move.
cat > ctl <<'END_OF_CTL'
#!/bin/sh
case $1 in
    up | down)
        echo "$1 $2" >> moved
        [ ! -e "$2.bad" ] || exit 7
        echo "$1" > "$2.is"
        ;;
    state | check)
        [ -e "$2.is" ] || exit 100
        case $(cat "$2.is") in up) exit 0 ;; down) exit 3 ;; *) exit 5 ;; esac
        ;;
    *) exit 100 ;;
esac
END_OF_CTL
chmod 755 ctl
# they_are NAME=WHERE..: the services are there now
they_are() {
    rm -f ./*.is ./*.bad moved
    for said; do echo "${said#*=}" > "${said%%=*}.is"; done
}
# moves WHAT MOVE..: these transitions were made, in this order
moves() {
    title=$1
    shift
    for move; do echo "$move"; done > left.wanted
    cp moved left 2> /dev/null || : > left
    rm -f moved
    same "what moved: $title"
}
# repairs STATUS OUTPUT WORDS..: check -r prints this, and nothing on standard error
repairs() {
    wanted=$1 output=$2
    shift 2
    expect "$wanted" "$output" '' '' check -r "$@" -w 1 -q -c ./ctl -b made -l live
}
standing() {
    expect 0 "live${1:+ $1}\nok\n" '' '' live -b made -l live
}

# Where nothing is elsewhere, nothing moves, and no file is made.
they_are base=down side=down top=down web=down
repairs 0 ''
moves 'nothing is live'
holds 'check -r makes no file' test ! -e live
they_are
expect 0 'raised base once top web\nok\n' '' '' change top -c ./ctl -b made -l live
rm -f moved
they_are base=up side=down top=up web=up
cp live was
repairs 0 ''
moves 'nothing is elsewhere'
holds 'check -r leaves FILE as it is' cmp -s live was

# What is live and down is restarted, with all that needs it.
they_are base=up side=down top=up web=down
repairs 0 'web live, but down\nlowered top web\nok\nraised top web\nok\n'
moves 'one is down' 'down top' 'down web' 'up web' 'up top'
standing 'base once top web'
repairs 0 ''
they_are base=down side=down top=up web=down
repairs 0 'base live, but down\nweb live, but down\nlowered base once top web\nok\nraised base once top web\nok\n'
moves 'two are down' 'down top' 'down web' 'down once' 'down base' 'up base' 'up once' 'up web' 'up top'
expect 0 '' '' '' check -c ./ctl -b made -l live
# A oneshot is, if it is known to be down.
they_are base=up side=down top=up web=up once=down
repairs 0 'once live, but down\nlowered once top web\nok\nraised once top web\nok\n'
rm -f moved

# What is up and not live goes down, and FILE stays as it is.
they_are base=up side=up top=up web=up
cp live was
repairs 0 'side not live, but up\nlowered side\nok\n'
moves 'a stray' 'down side'
holds 'a stray leaves FILE as it is' cmp -s live was
# Both: the stray goes first.
they_are base=up side=up top=down web=up
repairs 0 'side not live, but up\ntop live, but down\nlowered side\nok\nlowered top\nok\nraised top\nok\n'
moves 'both' 'down side' 'down top' 'up top'
# Dependents go first, and what stands between two strays goes, too.
expect 0 'lowered base once top web\nok\n' '' '' change -D base -w 1 -c ./ctl -b made -l live
they_are base=up side=down top=down web=up
repairs 0 'base not live, but up\nweb not live, but up\nlowered base once web\nok\n'
moves 'two strays' 'down web' 'down once' 'down base'
standing ''
rm -f live
they_are base=up side=up top=down web=down
repairs 0 'base not live, but up\nside not live, but up\nlowered base side\nok\n'
holds 'strays make no file' test ! -e live

# The status: of the restart, of a stray that stays up, of a longrun that is not known.
they_are
expect 0 'raised base once web\nok\n' '' '' change web -c ./ctl -b made -l live
they_are base=up side=up top=down web=up
: > side.bad
repairs 2 'side not live, but up\nfailed side\nok\n'
they_are base=up side=up top=down web=down
: > side.bad
repairs 2 'side not live, but up\nweb live, but down\nfailed side\nok\nlowered web\nok\nraised web\nok\n'
moves 'a stray that stays' 'down side' 'down web' 'up web'
they_are base=up side=5 top=down web=down
repairs 3 'side not live, but unknown\nweb live, but down\nlowered web\nok\nraised web\nok\n'
moves 'one is not known' 'down web' 'up web'
they_are base=up side=down top=down web=up once=5
repairs 0 ''
they_are base=up side=down top=down web=down
: > web.bad
repairs 2 'web live, but down\nfailed web\nok\n'

# Names, and what is refused.
they_are base=down side=up top=down web=up
repairs 0 '' web top
repairs 0 'side not live, but up\nlowered side\nok\n' side
rm -f moved
repairs 1 'refused Unknown nobody\n' nobody
expect 1 '' 'undorc: NoController base\n' '' check -r -b made -l live
moves 'names'
wrong check -r
wrong check -r -b made
wrong check -r -n -c ./ctl -b made -l live

# The runner is that of the environment.
printf '#!/bin/sh\necho "by runner $1" >> moved\n' > run
chmod 755 run
they_are base=up side=down top=down web=up once=down
UNDORC_RUNNER=./run repairs 0 'once live, but down\nlowered once web\nok\nraised once web\nok\n'
moves 'by the runner' 'down web' 'by runner echo down once >> moved' '' 'by runner echo up once >> moved' '' 'up web'
UNDORC_RUNNER=./none expect 111 '' 'undorc: Io\n' '' check -r -c ./ctl -b made -l live

# It takes the lock, enters itself into FILE.log, and first enters what a killed command has moved.
they_are base=up side=down top=down web=down
exec 7>> live.lock
flock 7
expect 111 '' 'undorc: Busy\n' '' check -r -c ./ctl -b made -l live
moves 'locked'
exec 7>&-
: > live.log
repairs 0 'web live, but down\nlowered web\nok\nraised web\nok\n'
holds 'it is entered where it has altered FILE' sh -c '! grep -q . live.log || grep -q check live.log'
rm -f live.log live moved
they_are
expect 0 'raised base once web\nok\n' '' '' change web -c ./ctl -b made -l live
session_text live > live.run
printf -- '-t 1 -D change web\ntake 1 web\ndone 1 web ok\n' >> live.run
they_are base=up side=down top=down web=down
expect 0 '' 'undorc: Recovered\n' '' check -r -q -c ./ctl -b made -l live
moves 'a killed command'
standing 'base once'

# The text of a session stays one until something is restarted.
makes_plain live
they_are base=up side=up top=down web=down
repairs 0 'side not live, but up\nlowered side\nok\n'
first_line_is live 'undorc-live 2'
they_are base=down side=down top=down web=down once=down
repairs 0 'base live, but down\nonce live, but down\nlowered base once\nok\nraised base once\nok\n'
first_line_is live 'undorc-history 1'
rm -f moved

# With -x nothing would be known, so it is no option. What scripts write is kept by -o, and shown by -v.
wrong check -r -x none -c ./ctl -b made -l live
cd ..
