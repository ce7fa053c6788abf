#!/bin/sh
# Compiles the program as it stands, with nothing proved: tests/gate/unproved.sh PLACE, which `make program`
# calls. PLACE is left alone if no source has changed since it was made.
#
# The program has checks for wrong accesses to memory and for overflows in it, and is several times slower than
# a proved one.
set -eu
cd "$(dirname "$0")/../.."
place=$1
# shellcheck source=../lib/kit.sh
. tests/lib/kit.sh
if is_current "$place"; then
    echo "$place is up to date."
    exit
fi
needs_kit
mkdir -p "$(dirname "$place")"
room=$(mktemp -d)
trap 'rm -rf "$room"' EXIT

# `rt try` keeps no program: it runs one, in a folder where it is the file `program`. So the run is a change
# that brings up one oneshot, whose script copies that file.
script='cp program "$(cat place)"'
cat > "$room/copy.txt" <<END
undorc-db 1
services 1
service copy oneshot plain 0 0
needs
up ${#script}
$script
down -
bundles 0
end
END
printf '%s' "$room/program" > "$room/place"
mkdir "$room/cases"
printf '%s\n' session -b copy.txt > "$room/cases/copy.args"
echo 'change copy' > "$room/cases/copy"

echo "Compiling $(grep -c '^[a-z]' crates.txt) crates, with nothing proved. This takes one to three minutes."
begin=$(date +%s)
seconds() {
    echo $(($(date +%s) - begin))
}
(cd crates/undorc && exec rt try --cases "$room/cases" --data "copy.txt=$room/copy.txt" --data "place=$room/place") \
    > "$room/said" 2>&1 &
compiler=$!
# What runs in the background does not hear an interrupt.
trap 'kill "$compiler"; wait "$compiler"; exit 130' INT
trap 'kill "$compiler"; wait "$compiler"; exit 143' TERM
shown=0
while kill -0 "$compiler" 2> /dev/null; do
    sleep 1
    if [ $(($(seconds) - shown)) -ge 15 ]; then
        shown=$(seconds)
        echo "  still compiling after $shown s"
    fi
done
status=0
wait "$compiler" || status=$?
if [ "$status" -ne 0 ] || ! [ -s "$room/program" ]; then
    cat "$room/said" >&2
    echo "The program was not made; rt try ended with $status." >&2
    exit 1
fi
install -m 755 "$room/program" "$place"
echo "Made $place in $(seconds) s. Nothing of it is proved."
