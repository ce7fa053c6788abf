#!/bin/sh
# Runs the scripts of contrib/machine on whole machines: tests/outside/machine.sh PROGRAM [CASE..]. A
# machine has its own processes, mounts and network, and a root of its own over that of the host
# (machine/root.sh), in which s6 or runit is the first process. The last line is
# 'N passed, M failed, K skipped', and the status is 0 where none failed.
#
# It needs root, and says `skipped` without it, and where a tool is missing. All runs in namespaces
# that end with this script, and after eight minutes.
set -eu
tests=$(realpath "$(dirname "$0")")
program=$(realpath "$1")
shift
[ $# -gt 0 ] || set -- set contained first container update renames undone pipes force other flaky full hung killed thirty apply settings clock carried edited oneshots rescue command overlay repair
cases=$*
limit=900

# skip WHY COUNT: says so, and that nothing failed
skip() {
    echo "skipped: $2 machines under s6 and runit, since $1"
    echo "0 passed, 0 failed, $2 skipped"
    exit 0
}

# inner: in the namespaces: all cases, twenty machines side by side
inner() {
    room=$UNDORC_ROOM
    mount -t tmpfs room "$room"
    started=0
    for supervisor in $UNDORC_SUPERVISORS; do
        for case in $cases; do
            mkdir "$room/$supervisor.$case"
            sh "$tests/machine/case.sh" "$program" "$supervisor" "$case" \
                "$room/$supervisor.$case" > "$room/$supervisor.$case.said" 2>&1 &
            started=$((started + 1))
            [ $((started % 20)) -ne 0 ] || wait
        done
    done
    wait
    passed=0
    failed=0
    skipped=$UNDORC_SKIPPED
    # shellcheck source=../lib/tally.sh
    . "$tests/../lib/tally.sh"
    for said in "$room"/*.said; do
        adds "$said" || sed "s/^/$(basename "$said" .said): /" "$said"
    done
    tally
}
if [ -n "${UNDORC_ROOM:-}" ]; then
    status=0
    inner || status=$?
    exit "$status"
fi

# Each case is one machine under each supervisor.
count=$(($# * 2))
[ "$(id -u)" -eq 0 ] || skip 'only root can make them' "$count"
for tool in unshare nsenter pivot_root mountpoint flock pgrep execlineb s6-log busybox; do
    command -v "$tool" > /dev/null || skip "$tool is missing" "$count"
done
supervisors=
missing=0
for supervisor in s6 runit; do
    # shellcheck source=supervised/s6.sh
    . "$tests/supervised/$supervisor.sh"
    if there; then
        supervisors="$supervisors $supervisor"
    else
        missing=$((missing + $#))
        echo "skipped: $# machines, since the Debian package $supervisor is not installed"
    fi
done
room=$(mktemp -d)
running=
# A trap calls it.
# shellcheck disable=SC2317
tidy() {
    if [ -n "$running" ]; then
        kill -TERM "$running" 2> /dev/null || true
        wait "$running" || true
    fi
    rmdir "$room"
}
trap tidy EXIT
trap 'exit 130' INT
trap 'exit 143' TERM HUP

# In a container, root may lack the rights for one of these.
if ! unshare --mount sh -ec '
    mount -t tmpfs room "$1"
    mkdir "$1/upper" "$1/work" "$1/on"
    exec unshare --fork --pid --mount --uts --ipc --net sh "$2/machine/root.sh" "$1" true
    ' sh "$room" "$tests" 2> /dev/null; then
    skip 'root may make no namespaces here, or no overlay of its root' "$count"
fi
# What ends `unshare` ends all processes in its namespaces.
# shellcheck disable=SC2086
UNDORC_ROOM=$room UNDORC_SUPERVISORS=$supervisors UNDORC_SKIPPED=$missing timeout -k 2 "$limit" \
    unshare --mount --pid --fork --kill-child --mount-proc sh "$0" "$program" $cases &
running=$!
status=0
wait "$running" || status=$?
running=
if [ "$status" -eq 124 ] || [ "$status" -eq 137 ]; then
    echo "FAILED: the machines did not end within $limit s"
    echo '0 passed, 1 failed'
fi
exit "$status"
