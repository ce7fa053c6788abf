# shellcheck shell=sh
# Runs in a machine: asks for flaky-1 to be down while its supervisor is stopped, with the daemon
# crashed and wanted up. The answer must not come before the supervisor has read that.
here=/etc/undorc/machine
# shellcheck source=../../../contrib/machine/settings
. "$here/settings"
# shellcheck source=../../../contrib/machine/s6.sh
. "$here/$UNDORC_SUPERVISOR.sh"
dir=$UNDORC_SCAN/flaky-1
# wanted_up: wants the daemon up, and sets `supervisor` to the process of its supervisor
wanted_up() {
    case $UNDORC_SUPERVISOR in
        s6)
            supervisor=$(pgrep -f '^s6-supervise flaky-1$')
            s6-svc -u "$dir"
            ;;
        runit)
            supervisor=$(pgrep -f '^runsv flaky-1$')
            sv up "$dir"
            ;;
    esac
}
# asked: prints whether the answer came too early, and fails where the supervisor took too long to
# read what is wanted, as on a busy machine
asked() {
    wanted_up
    turn=0
    until kill -STOP "$supervisor" && [ "$(state_of "$dir")" = 'down wanted' ]; do
        kill -CONT "$supervisor"
        turn=$((turn + 1))
        [ "$turn" -le 50 ] || break
        sleep 0.1
    done
    want_down "$dir" &
    answer=$!
    sleep 0.6
    if kill -0 "$answer" 2> /dev/null; then early=no; else early=yes; fi
    kill -CONT "$supervisor"
    wait "$answer"
}
for turn_of in 1 2 3; do
    if asked; then break; fi
done
if [ "$early" = no ]; then echo 'no answer yet'; else echo 'too early'; fi
state_of "$dir"
