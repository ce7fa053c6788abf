# shellcheck shell=sh
# Pipelines: two producers, a longrun in the middle, and a logger. Each end restarts while lines are
# written, and none is lost.
disk p
mkdir mid
for name in p1 p2; do
    longrun "$name" "trap 'exit 0' TERM
read -r n < /run/n.$name || n=0
while :; do n=\$((n + 1)); echo $name \$n; echo \$n > /run/n.$name; sleep 0.01; done"
    pipe "$name" mid
done
longrun mid 'exec s6-log -b 1'
case $supervisor in
    s6) longrun log 'exec s6-log -b -d 3 n1 s10000000 /run/logged' ;;
    runit) longrun log 'exec s6-log -b n1 s10000000 /run/logged' ;;
esac
pipe mid log
echo all > log/pipeline-name
[ "$supervisor" = runit ] || echo 3 > log/notification-fd
bundle default all
cp "$tests/machine/lost.sh" "$disk/upper/etc/undorc/lost"
start_scanner p
step 'boot' 'raised log mid p1 p2
ok
status 0' 'undorc compile -o db services; machine/boot'
is 'the sources are not edited' '0 run' "$(script 'ls services/*/pipe-* services/*/run.own \
    2> /dev/null | wc -l | tr "\n" " "; cd services/mid; ls run')"

# move up|down|restart NAME: prints the command that moves it behind the session's back
move() {
    case $supervisor.$1 in
        s6.restart) echo "s6-svc -r /run/service/$2" ;;
        s6.up) echo "s6-svc -u /run/service/$2" ;;
        s6.down) echo "s6-svc -d /run/service/$2" ;;
        runit.*) echo "sv $1 /run/service/$2 > /run/x" ;;
    esac
}
script "sleep 1
    for turn in 1 2 3; do
        $(move restart log); sleep 0.5; $(move restart mid); sleep 0.5
        $(move restart p1); sleep 0.5; $(move restart p2); sleep 0.5
    done
    $(move down log); sleep 1.2; $(move up log)
    $(move down mid); sleep 1.2; $(move up mid)
    sleep 0.5
    kill -KILL \$(pgrep -f '^/bin/sh ./run.own' | head -n 1)
    sleep 1.5"
# The same while nothing else holds the fifos open.
is 'a reader goes on after all its writers have ended' yes "$(script "
    $(move down undorc-pipes); sleep 0.5; was=\$($(daemon_text mid))
    $(move down p1); $(move down p2); sleep 1
    $(move up p1); $(move up p2); $(move up undorc-pipes); sleep 0.5
    [ \$($(daemon_text mid)) = \$was ] && echo yes")"
step 'the producers go down' 'lowered p1 p2
ok
status 0' 'machine/manage change -d p1 p2'
within 20 '[ $(sh lost | grep -c whole) -eq 2 ]' || true
step 'their consumers go down' 'lowered log mid
ok
status 0' 'machine/manage change -d log'
is 'no line is lost by restarts of any end' 'p1 whole
p2 whole' "$(script 'sh lost')"

# What is in a fifo while both ends are down is read later: the number after the last one that the
# logger had read.
step 'lines that both ends leave behind' '1
status 0' "machine/manage change p1 > /run/x
    $(move down log); sleep 0.5; cat /run/n.p1 > /run/n0; sleep 0.5
    machine/manage change -d p1 > /run/x; machine/manage change -d log > /run/x
    sleep 0.5; machine/manage change mid > /run/x; next=\$((\$(cat /run/n0) + 1))
    timeout 20 sh -c \"until grep -q '^p1 \$next\$' /run/logged/current; do sleep 0.1; done\"
    grep -c \"^p1 \$next\\\$\" /run/logged/current"
step 'a fifo whose name is gone is still that of its longruns' 'raised log mid p1
ok
all of it
status 0' 'machine/manage change -d log > /run/x; rm /run/undorc/services/.set/.pipes/log
    machine/manage change p1; sleep 1; machine/manage change -d p1 > /run/x
    timeout 20 sh -c "until sh lost p1 | grep -q whole; do sleep 0.1; done"
    machine/manage change -d log > /run/x; sh lost p1 | grep -q whole && echo all of it'
stop
