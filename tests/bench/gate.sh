#!/bin/sh
# Runs the gate once, and prints what it cost by crate as a table: processor time (user and system) in
# seconds. Run it on a machine with nothing else to do.
#   tests/bench/gate.sh [COMMAND..]     the command is `make test` where none is given
# The processes of the prover are looked at once a second, with those that they start, so a figure may
# lack the last second of each. What else the gate does (layout, linking, runs) is in the last line alone.
set -eu
cd "$(dirname "$0")/../.."
room=$(mktemp -d)
trap 'rm -rf "$room"' EXIT
[ $# -gt 0 ] || set -- make test

# One line for each process of the prover below the gate: its number and when it began, the crate, what
# it does, and the ticks that it and all below it have used.
look() {
    pgrep -a -f '[r]attle (check|build) --crate-name' > "$room/provers" || true
    cat /proc/[0-9]*/stat > "$room/processes" 2> /dev/null || true
    awk -v gate="$gate" '
        FILENAME ~ /provers$/ {
            for (i = 2; i < NF; i++) if ($i == "--crate-name") crate[$1] = $(i + 1)
            work[$1] = / --only/ ? "mutants" : $3 == "build" && / --backend/ ? "built" : "proof"
            next
        }
        {
            pid = $1
            sub(/^.*\) /, "")
            parent[pid] = $2
            used[pid] = $12 + $13 + $14 + $15
            began[pid] = $20
        }
        END {
            for (pid in used) {
                top = inside = ""
                for (at = pid; at in parent; at = parent[at]) {
                    if (at in crate) top = at
                    if (at == gate) inside = 1
                }
                if (top != "" && inside) sum[top] += used[pid]
            }
            for (top in sum) print top "/" began[top], crate[top], work[top], sum[top]
        }' "$room/provers" "$room/processes" >> "$room/looks"
}

lines() {
    find "crates/$1/$2" -name "$3" -exec cat {} + 2> /dev/null | wc -l
}

: > "$room/looks"
/usr/bin/time -f '%U %S %e' -o "$room/time" "$@" &
gate=$!
while kill -0 "$gate" 2> /dev/null; do
    look
    sleep 1
done
status=0
wait "$gate" || status=$?

awk -v ticks="$(getconf CLK_TCK)" '
    { if ($4 > most[$1]) most[$1] = $4; what[$1] = $2 " " $3 }
    END { for (key in most) sum[what[key]] += most[key]; for (it in sum) print it, sum[it] / ticks }
' "$room/looks" > "$room/sums"

echo
echo '| Crate | Code | Specs | Proofs | Proof, s | Building, s | Edits |'
echo '|---|---|---|---|---|---|---|'
sed -n 's/^\([a-z][a-z0-9_]*\)[^:#]*:.*/\1/p' crates.txt | while read -r crate; do
    mutants=$(find "crates/$crate/mutants" -name '*.edit' 2> /dev/null | wc -l)
    echo "$crate $(lines "$crate" src '*.rt') $(lines "$crate" specs '*.antt') $(lines "$crate" proofs '*.antt') $mutants"
done | awk '
    FNR == NR {
        seconds[$1, $2] = $3
        if ($2 == "mutants") tried += $3
        next
    }
    {
        printf "| `%s` | %d | %d | %d | %.0f | %.0f | %d |\n", $1, $2, $3, $4,
            seconds[$1, "proof"], seconds[$1, "built"], $5
        code += $2; specs += $3; proofs += $4; mutants += $5
        proof += seconds[$1, "proof"]; built += seconds[$1, "built"]
    }
    END {
        printf "| all | %d | %d | %d | %.0f | %.0f | %d |\n", code, specs, proofs, proof, built, mutants
        printf "\nThe mutants, of which crates that do not stand on each other are tried together: %.0f s.\n", tried
    }
' "$room/sums" -
# A command that fails has lines of its own before the times.
tail -n 1 "$room/time" |
    awk '{ printf "\nThe whole: %.0f processor minutes, %.0f minutes by the clock.\n", ($1 + $2) / 60, $3 / 60 }'
exit "$status"
