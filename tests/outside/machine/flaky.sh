# shellcheck shell=sh
# Daemons that crash at once, and just when the supervisor is about to start them again: after the
# controller has failed, none starts once more. There are many of them, since it is a race. On a busy
# machine they live for longer, so the controller looks later than usual whether they still do.
disk c
names=
for number in 1 2 3 4 5 6 7 8 9 10 11 12 13 14 15 16 17 18 19 20; do
    longrun "flaky-$number" 'echo started >> /run/starts; exit 1'
    longrun "late-$number" "echo started >> /run/starts; sleep 0.6; exit 1"
    names="$names flaky-$number late-$number"
done
start_scanner c
does 'undorc compile -o db services; machine/init' > "$room/said"
for round in 1 2 3; do
    is "round $round: nothing starts after it has failed, and nothing is wanted up" \
        'status 2, 0 raised, 0 starts, 0 up or wanted' "$(script "export UNDORC_WORKERS=40 UNDORC_SETTLE=8
            machine/manage change $names > /run/x 2>&1; ended=\$?
            raised=\$(sed -n 's/^raised//p' /run/x | wc -w)
            wanted=\$(machine/says | grep -vc ' down\$')
            before=\$(wc -l < /run/starts); sleep 2; after=\$(wc -l < /run/starts)
            echo \"status \$ended, \$raised raised, \$((after - before)) starts,\" \\
                \"\$wanted up or wanted\"")"
done
is 'the answer waits until the supervisor has read what is wanted' 'no answer yet
down' "$(inside sh -s < "$tests/machine/wish.sh")"
stop
