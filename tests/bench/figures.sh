#!/bin/sh
# Writes docs/FIGURES.md: tests/bench/figures.sh [NAME..]. Runs the scripts NAME.sh of this folder, or all but
# `gate`, on the built program, and puts what they print into the document with commit and date. A section
# that is not measured now keeps its figures. `tests/bench/figures.sh --check` measures nothing, and prints
# how heads and texts differ from what would be written (status 1).
set -eu
cd "$(dirname "$0")/../.."
document=docs/FIGURES.md
room=$(mktemp -d)
trap 'rm -rf "$room"' EXIT
all='instructions lines reading plans compile scripts changes session live histories bounds boots gate'

# says NAME: what the figures are
says() {
    case $1 in
        instructions) cat <<'END'
# A change of all services, and plans: instructions

Instructions by `valgrind --tool=callgrind`, so other work does not disturb them. The first two tables
compare one worker, and in one column four, that changes 4,096 services, undoes and redoes that with
`tests/bench/plain.c`, a plain loop over services and pairs; the second one is in thousands of
instructions. Reading the database is left out. The third one compares with `ninja -n`: `plan all`
raises every service, `plan one` the one that needs most. The last one is the peak memory of a session.
END
            ;;
        lines) cat <<'END'
# One line of a session, and one event: instructions

A session line that changes one of 4,096 services, by one worker, compared with a plain loop
(`tests/bench/plain.c`); and `replay` for each event.
END
            ;;
        reading) cat <<'END'
# Reading texts: instructions

`db check` compared with a plain Rust program that parses and checks the same text
(`tests/bench/plain_reader.rs`); `live` on the file of a session with 1,024 states of 4,096 services; and
a one-shot change, from the text of 1,024 states of 256 services to the one that replaces it.
END
            ;;
        plans) cat <<'END'
# Plans: processor time

`plan` and `db check` on 4,096 services, compared with `ninja -n` on the same graph.
END
            ;;
        compile) cat <<'END'
# The compiler: processor time and instructions

`compile` on 4,096 services as directories, compared with `ninja -n` and `make -n` on one file each.
The compiler opens each file of a service; the others do not. Instructions are compared with a plain
Rust program that reads the same directories (`tests/bench/plain_compiler.rs`).
END
            ;;
        scripts) cat <<'END'
# Sessions that start scripts

A session that runs `true` by `/bin/sh` for each of 4,096 oneshots: processor time, the scripts included,
also compared with `ninja -j` and `make -j`, and with `xargs -P`, which knows no dependencies.
END
            ;;
        changes) cat <<'END'
# A change of all services: processor time

The same as the first tables in processor time, by 1, 4 and 64 workers. Each command starts its
threads, and transitions that start no script leave nothing to gain from more workers.
END
            ;;
        session) cat <<'END'
# Lines of long sessions: processor time

Ratios of the time of a line after many lines, and after many states.
END
            ;;
        live) cat <<'END'
# The file of a session: processor time

A file that is read once and written once by a session without lines. Time and bytes are multiples of
the first row, so time is linear where both grow alike.
END
            ;;
        histories) cat <<'END'
# Histories: instructions and processor time

A command on a history of 8 databases with a session each, beside the same on a live text alone, in
millions of instructions. Each command but `live` writes FILE whole. The change moves one service; the
update and the undo across a border move none.
END
            ;;
        bounds) cat <<'END'
# Commands at the bound of their input

Each command at the bound of its input, compared with half of it: 2 is linear.
END
            ;;
        boots) cat <<'END'
# A machine of 57 services, up and down: seconds by the clock

`manage change default` and `shutdown` of `contrib/machine`, `make -j` and OpenRC, in one run, with the
same scripts and the same controller under s6; the least and the most of three rounds. Scripts only
sleep: the longest chain takes 6 s up and 0.6 s down. `boot` is a whole first process: from its start to
the end of its boot, and from the signal to halt to the end of its shutdown.
END
            ;;
        gate) cat <<'END'
# The merge gate

Processor seconds of one run of `make test` from nothing. `Building` is that of a program by both
compilers, and lines of code, definitions and proofs stand beside it.
END
            ;;
    esac
}

# kept NAME: what stands in the document below the text of a section: commit and figures
kept() {
    heading=$(says "$1" | sed -n '1s/^# /## /p')
    awk -v "heading=$heading" '
        /^## / { inside = ($0 == heading); next }
        inside && /^(Printed by|Taken over) / { figures = 1 }
        inside && figures { lines = lines $0 "\n" }
        END { sub(/\n+$/, "\n", lines); printf "%s", lines }' "$document"
}

# measured NAME: commit, date and what the script prints now
measured() {
    echo "Printed by \`tests/bench/$1.sh\` at commit $(git rev-parse --short=8 HEAD), $(date -u +%F)."
    echo
    # Behind what the gate itself prints stands a table.
    if [ "$1" = gate ]; then
        tests/bench/gate.sh | sed -n '/^| Crate /,$p'
    else
        "tests/bench/$1.sh"
    fi
}

check=
[ "${1:-}" != --check ] || { check=yes; shift; }
now=$*
[ $# -gt 0 ] || [ -n "$check" ] || now=${all% gate}
{
    cat <<'END'
# Figures

Made by `tests/bench/figures.sh`, which runs the scripts beside it on the built program; nobody edits
it by hand. Each section names its script, the commit and the date. `tests/bench/figures.sh NAME..`
measures some sections anew: `lines` is `tests/bench/lines.sh`. Times are from machines with other
work; figures of instructions and bytes do not depend on that. "Times" means a multiple.

A section that says "Taken over" was not made by a run of `tests/bench/figures.sh`. Its figures were
recorded by hand in an earlier document, in the commit that it names; its columns may differ from what
the script prints today.

Graphs, as `tests/bench/graph.sh` makes them: `none` has no dependencies; in `next` each service needs
the next one, in `before` the one before; in `fan` one needs all others; `layers` are layers of 64,
each service needing the whole layer below; in `random` each needs some four.
END
    for name in $all; do
        case " $now " in
            *" $name "*) measured "$name" > "$room/figures" ;;
            *) kept "$name" > "$room/figures" ;;
        esac
        [ -s "$room/figures" ] || continue
        echo
        says "$name" | sed '1s/^# /## /'
        echo
        cat "$room/figures"
    done
} > "$room/document"
if [ -n "$check" ]; then
    diff -u "$document" "$room/document"
else
    cp "$room/document" "$document"
fi
