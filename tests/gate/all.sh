#!/bin/sh
# The whole gate: every proof and stored run, then the built program from outside and under real supervisors, and the scripts.
# The last line is 'N passed, M failed, K skipped' over all. The status is 0 where none failed; with UNDORC_NO_SKIPS set,
# where none was skipped either.
set -eu
cd "$(dirname "$0")/../.."
# shellcheck source=../lib/tally.sh
. tests/lib/tally.sh
room=$(mktemp -d)
trap 'rm -rf "$room"' EXIT
: > "$room/spent"
# Drawn cases are others every day. A seed stands for one case, and those after it for the next ones.
day=$(($(date -u +%s) / 86400))
seed=$((day * 1000000))
echo "seeds of drawn cases: from $seed and from $((seed + 500000))"

# How many crates are proved at a time: one a processor, as far as there are 4 GB for each.
lanes() {
    awk -v processors="$(nproc)" '/^MemAvailable:/ { room = int($2 / 4000000) }
        END { print room < 1 ? 1 : room < processors ? room : processors }' /proc/meminfo
}

# count COMMAND..: runs a command whose last line counts what passed, failed and was skipped. A command that ends badly
# without saying what failed is one failure.
count() {
    begin=$(date +%s)
    here=$(mktemp -d "$room/XXXXXX")
    echo 1 > "$here/status"
    { status=0; "$@" || status=$?; echo "$status" > "$here/status"; } 2>&1 | tee "$here/said"
    status=$(cat "$here/status")
    passed=0 failed=0 skipped=0
    if ! adds "$here/said"; then
        echo "FAILED: $*: $failed failed, status $status"
    elif [ "$status" -ne 0 ]; then
        failed=1
        echo "FAILED: $*: status $status"
    fi
    echo "$passed passed, $failed failed, $skipped skipped" > "$here/counts"
    echo "$(($(date +%s) - begin)) s by the clock: $*" >> "$room/spent"
}

# within SECONDS COMMAND..: the same under a limit; the command leaves no process behind
within() {
    count tests/lib/within.py "$@"
}

# built PROGRAM: whether a build is there; where it is missing, that is one failure
built() {
    [ ! -f "$1" ] || return 0
    here=$(mktemp -d "$room/XXXXXX")
    echo "FAILED: $1 was not built"
    echo '0 passed, 1 failed' > "$here/counts"
    return 1
}

# What LLVM built.
first() {
    if built crates/undorc/out/undorc; then
        within 1800 tests/outside/program.sh crates/undorc/out/undorc
        within 900 tests/outside/wrong.sh crates/undorc/out/undorc
        within 900 tests/outside/kills.py crates/undorc/out/undorc 200 "$seed"
        within 2400 tests/outside/calls.py crates/undorc/out/undorc
        within 900 tests/gate/pages.sh crates/undorc/out/undorc
        within 900 tests/gate/packaging.sh crates/undorc/out/undorc
        within 900 tests/gate/tutorial.sh crates/undorc/out/undorc
    fi
    if built crates/scenarios/out/scenarios; then
        within 900 tests/outside/growths.sh crates/scenarios/out/scenarios
    fi
    within 900 tests/gate/shells.sh
    within 60 tests/gate/codes.sh
}

# What Rattle's own compiler built, and drawn cases on the first program, which take as long.
second() {
    if built crates/undorc/out/undorc.by-rattle; then
        within 1800 tests/outside/program.sh crates/undorc/out/undorc.by-rattle
        within 600 tests/outside/fuzz.sh 30 $((seed + 500000)) crates/undorc/out/undorc.by-rattle
    fi
    if built crates/scenarios/out/scenarios.by-rattle; then
        within 900 tests/outside/growths.sh crates/scenarios/out/scenarios.by-rattle
    fi
    if built crates/undorc/out/undorc; then
        within 600 tests/outside/fuzz.sh 30 "$seed" crates/undorc/out/undorc
        within 600 tests/outside/fuzz.sh 20 "$seed" crates/undorc/out/undorc histories
    fi
}

# Whether each crate that has mutants is proved, as far as the proofs have come.
are_proved() {
    for mutants in crates/*/mutants; do
        crate=$(basename "$(dirname "$mutants")")
        grep -Eqs "rt: $crate (proved|is kept)" "$room"/*/said || return 1
    done
}

# With a number of lanes of its own `rt ci` gives each crate one processor; else the last crate has all, and
# costs a fifth more.
{
    count env RT_JOBS="$(lanes)" rt ci
    # The program that was just proved, by its sum.
    [ "$failed" -ne 0 ] || tests/gate/proved.sh -w crates/undorc/out/undorc || true
    : > "$room/ended"
} &
proofs=$!
# What is proved last is programs, one after the other, so the mutants need not wait for them.
until [ -f "$room/ended" ] || are_proved; do
    sleep 2
done
# Of some crates the bodies are tried as they are, too: none of them may be refused.
{
    within 7200 tests/gate/mutants.py
    within 1800 tests/gate/mutants.py --right rc_names rc_dbtext::lexer rc_bundle rc_session
} > "$room/mutants" 2>&1 &
mutants=$!
wait "$proofs"
# The mutants keep the processors busy, and the runs from outside mostly wait, so they go side by side; what
# they say comes when the mutants have been tried. Supervisors are given the machine for themselves, since
# how soon they answer is what is looked at.
first > "$room/first" 2>&1 &
first=$!
second > "$room/second" 2>&1 &
second=$!
wait "$mutants"
cat "$room/mutants"
wait "$first"
cat "$room/first"
wait "$second"
cat "$room/second"
if [ -f crates/undorc/out/undorc ]; then
    within 600 tests/outside/supervised.sh crates/undorc/out/undorc
    within 1200 tests/outside/machine.sh crates/undorc/out/undorc
fi

# What it cost: the clock, and of the processors user and system time of the last line of `times`.
passed=0 failed=0 skipped=0
for counts in "$room"/*/counts; do
    adds "$counts" || true
done
times > "$room/times"
cat "$room/spent"
echo "processor time, user and system: $(tail -n 1 "$room/times")"
# Kept for an archive of this very program.
if [ -f crates/undorc/out/undorc ]; then
    {
        echo "program $(sha256sum < crates/undorc/out/undorc | cut -d ' ' -f 1)"
        echo "gate $passed passed, $failed failed, $skipped skipped"
    } > crates/undorc/out/gate
fi
[ -z "${UNDORC_NO_SKIPS:-}" ] || [ "$skipped" -eq 0 ] || echo 'FAILED: something was skipped'
tally && { [ -z "${UNDORC_NO_SKIPS:-}" ] || [ "$skipped" -eq 0 ]; }
