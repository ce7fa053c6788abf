#!/bin/sh
# Drawn and mutated cases, each run by the built program and by the plain one of tests/second, which must
# agree in status, output, the first line that is told, and files: tests/outside/fuzz.sh SECONDS [SEED [PROGRAM [KIND]]].
# KIND is `cases`, or `histories`: several commands in a row on one file, among them updates, undos and redos.
# Without a seed another one is taken each time, and told. What differs is made smaller and printed with its seed; with
# 0 seconds the one case of the seed is run. Fewer than five commands a second are a failure. The last line is
# 'N passed, M failed'.
set -eu
here=$(realpath "$(dirname "$0")")
program=$(realpath "${3:-$here/../../crates/undorc/out/undorc}")
seed=${2:-$(date +%s)}
if ! python3 -c 'import os; os.pidfd_open'; then
    echo 'FAILED: no python3, of 3.9 or later, for the plain program'
    echo '0 passed, 1 failed'
    exit 1
fi
PYTHONDONTWRITEBYTECODE=1 exec python3 "$here/../second/fuzz.py" "$program" "$1" "$seed" "${4:-cases}"
