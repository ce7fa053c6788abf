#!/bin/sh
# Proves what the program stands on, as many crates side by side as processors and memory allow, and
# builds the program: tests/gate/build.sh PROGRAM. Nothing is done if PROGRAM is the one that was proved, and
# no source has changed since. A crate begins once all that it stands on is proved, and of those that may
# begin first the one with the most to prove after it. A line tells when each begins and when it has ended.
set -eu
cd "$(dirname "$0")/../.."
program=$1
# shellcheck source=../lib/kit.sh
. tests/lib/kit.sh
if is_current "$program" && tests/gate/proved.sh "$program"; then exit; fi
needs_kit
mkdir -p crates/undorc/out
room=$(mktemp -d "$PWD/.build.XXXXXX")

# What a crate keeps for its next check goes back to it, however this ends.
# shellcheck disable=SC2317 # it is called by a trap
put_back() {
    for out in "$room"/trees/*/crates/*/out; do
        [ -d "$out" ] || continue
        crate=$(basename "$(dirname "$out")")
        [ "$out" = "$room/trees/$crate/crates/$crate/out" ] || continue
        rm -rf "crates/$crate/out"
        mv "$out" "crates/$crate/out"
    done
}
# What runs beside the script is in its process group, and does not hear an interrupt.
# shellcheck disable=SC2317 # it is called by a trap
end_all() {
    trap '' TERM
    kill 0
    wait
}
trap 'put_back; rm -rf "$room"' EXIT
trap 'end_all; exit 130' INT
trap 'end_all; exit 143' TERM

# A check takes up to 3 GB.
memory=$(awk '/^MemAvailable:/ { print int($2 / 3000000) }' /proc/meminfo 2> /dev/null || true)
lanes=$(nproc)
[ "${memory:-0}" -lt 1 ] || [ "$memory" -ge "$lanes" ] || lanes=$memory
lanes=${JOBS:-$lanes}

# The program's crates, those with the most lines after them first: each with the crates of the
# repository that it names.
for folder in crates/*; do
    echo "$(basename "$folder") $(find "$folder" -name out -prune -o -type f -exec cat {} + | wc -l)"
done > "$room/lines"
awk '
    FNR == NR { lines[$1] = $2; next }
    /^[a-z]/ {
        sub(/#.*/, "")
        name = $1
        sub(/:$/, "", name)
        order[++count] = name
        for (i = 2; i <= NF; i++) if ($i in lines) deps[name] = deps[name] " " $i
    }
    # The lines of the longest chain of crates from this one to the program, or -1 where there is none.
    function behind(name,  i, most, chain) {
        if (name in known) return known[name]
        most = name == "undorc" ? 0 : -1
        for (i = 1; i <= count; i++) {
            if (index(deps[order[i]] " ", " " name " ") == 0) continue
            chain = behind(order[i])
            if (chain > most) most = chain
        }
        return known[name] = most < 0 ? -1 : most + lines[name]
    }
    END {
        for (i = 1; i <= count; i++)
            if (behind(order[i]) >= 0) print behind(order[i]), order[i] deps[order[i]]
    }' "$room/lines" crates.txt | sort -rn | cut -d ' ' -f 2- > "$room/crates"

deps_of() {
    sed -n "s/^$1\( .*\)\{0,1\}$/\1/p" "$room/crates"
}

# All that a crate stands on, each once.
below() {
    for dep in $(deps_of "$1"); do
        echo "$dep"
        below "$dep"
    done | sort -u
}

may_begin() {
    for dep in $(deps_of "$1"); do
        [ -f "$room/$dep.proved" ] || return 1
    done
}

# link CRATE TREE PART..: parts of a crate, as hard links in a tree
link() {
    crate=$1 tree=$2
    shift 2
    for part in "$@"; do
        [ -e "crates/$crate/$part" ] || continue
        mkdir -p "$(dirname "$tree/crates/$crate/$part")"
        cp -al "crates/$crate/$part" "$tree/crates/$crate/$part"
    done
}

# prove CRATE JOBS: in a tree of its own, since rt lets one run at a time into a crate and into those
# that it stands on. What is told is left in out/build.log.
prove() {
    name=$1 jobs=$2 tree=$room/trees/$1
    mkdir -p "$tree/crates/$name"
    cp HANDLES "$tree"
    for dep in $(below "$name"); do
        grep "^${dep}[ :]" crates.txt
        link "$dep" "$tree" src specs proofs out/rlib
    done > "$tree/crates.txt"
    grep "^${name}[ :]" crates.txt >> "$tree/crates.txt"
    link "$name" "$tree" src specs proofs
    mkdir -p "crates/$name/out"
    mv "crates/$name/out" "$tree/crates/$name/out"
    if [ "$name" = undorc ]; then
        set -- rt run --jobs "$jobs" -- plan
    else
        set -- rt lib --jobs "$jobs"
    fi
    begin=$(date +%s)
    sample=$PWD/docs/samples/sample.txt
    if (cd "$tree/crates/$name" && "$@" < "$sample" > out/build.log 2>&1); then
        echo "proved $name in $(($(date +%s) - begin)) s"
        touch "$room/$name.proved"
    else
        touch "$room/$name.failed"
    fi
    mv "$tree/crates/$name/out" "crates/$name/out"
    touch "$room/$name.ended"
}

# Where a crate fails no other begins; what runs is waited for, and kept.
left=$(cut -d ' ' -f 1 "$room/crates")
running=
status=0
while [ -n "$left$running" ]; do
    still=
    count=0
    for crate in $running; do
        if ! [ -f "$room/$crate.ended" ]; then
            still="$still $crate"
            count=$((count + $(cat "$room/$crate.jobs")))
        elif [ -f "$room/$crate.failed" ]; then
            echo "$crate failed:"
            cat "crates/$crate/out/build.log"
            status=1
            left=
        fi
    done
    running=$still
    ready=
    waiting=
    for crate in $left; do
        if may_begin "$crate"; then ready="$ready $crate"; else waiting="$waiting $crate"; fi
    done
    # Processors that nothing else waits for go to the crates that begin.
    # shellcheck disable=SC2086
    jobs=$(set -- $ready; [ $# -gt 0 ] || set -- none; echo $(((lanes - count) / $#)))
    [ "$jobs" -ge 1 ] || jobs=1
    [ "$jobs" -le 4 ] || jobs=4
    left=
    for crate in $ready; do
        if [ $((count + jobs)) -le "$lanes" ]; then
            echo "proving $crate"
            echo "$jobs" > "$room/$crate.jobs"
            prove "$crate" "$jobs" &
            running="$running $crate"
            count=$((count + jobs))
        else
            left="$left $crate"
        fi
    done
    left="$left$waiting"
    [ -z "$running" ] || sleep 0.2
done
if [ "$status" -eq 0 ]; then
    touch crates/undorc/out/undorc
    tests/gate/proved.sh -w crates/undorc/out/undorc
fi
exit "$status"
