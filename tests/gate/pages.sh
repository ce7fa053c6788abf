#!/bin/sh
# Compares the man pages and the completion with the program, and the documents with the sources:
# tests/gate/pages.sh PROGRAM. What must stand there is taken from the help texts of the program, from docs/FORMATS.md and docs/COMMANDS.md, from
# crates.txt and from the sources. The last line is 'N passed, M failed, K skipped', and the status is 0 where none failed.
set -eu
here=$(realpath "$(dirname "$0")")
program=$(realpath "$1")
. "$here/../lib/library.sh"
pages=$top/man
contrib=$top/contrib/completion

# equals TITLE: the lines of `found` against those of `wanted`, whatever their order.
equals() {
    sort -u found > found.sorted
    sort -u wanted > wanted.sorted
    if [ -s wanted ] && cmp -s found.sorted wanted.sorted; then
        passed=$((passed + 1))
        return
    fi
    failed=$((failed + 1))
    echo "FAILED: $1 (- wanted, + found):"
    diff -u wanted.sorted found.sorted | sed -e 1,2d -e '/^ /d' || true
}

# holds TITLE: each line of `wanted` is one of `found`.
holds() {
    sort -u found > found.sorted
    sort -u wanted | comm -23 - found.sorted > missed
    if [ -s wanted ] && ! [ -s missed ]; then
        passed=$((passed + 1))
        return
    fi
    failed=$((failed + 1))
    echo "FAILED: $1 has nothing of:"
    cat missed
}

# The commands of the program, and of each its options: lines `COMMAND OPTION`, with `=` after an
# option that has a value.
"$program" -h > said || true
sed -n '/^Commands:/,/^$/s/^  \([a-z][a-z]*\)  .*/\1/p' said > commands
grep -v -x help commands > own
while read -r command; do
    "$program" "$command" -h > said < /dev/null || true
    sed -n -e "s/^ *\(-[A-Za-z]\) <.*/$command \1=/p" -e "s/^  \(-[A-Za-z]\)  .*/$command \1/p" \
        -e "s/^ *\(--[a-z]*\) <.*/$command \1=/p" said
    [ "$command" != db ] || cp said asked
done < own > options
sed -n 's/^ *<QUERY>.*: //p' asked | sed -e 's/ or /, /' -e 's/, */\n/g' > queries

# section PAGE NAME: the lines of a section of a page.
section() {
    awk -v name="$2" '/^\.Sh / { inside = ($0 == ".Sh " name) } inside' "$pages/$1"
}

# items PAGE NAME MACRO: the first words of the items of a section, which have this macro.
items() {
    section "$1" "$2" | awk -v macro="$3" '
        /^\.It / {
            is = 0
            for (i = 2; i <= NF; i++) {
                if ($i == macro) is = 1
                else if (is && $i ~ /^[A-Za-z0-9]/ && $i !~ /^[A-Z][a-z]$/) { print $i; is = 0 }
                else if ($i == ",") is = 1
                else is = 0
            }
        }'
}

echo 'man pages'
cp own wanted
section undorc.1 SYNOPSIS | sed -n 's/^\.Cm //p' > found
equals 'the commands of the synopsis'
items undorc.1 DESCRIPTION Cm > found
equals 'the commands that are described'

cp options wanted
section undorc.1 SYNOPSIS | awk '
    /^\.Cm / { command = $2 }
    /^\.Op / || /^\.Fl / {
        sub(/^\./, "")
        for (i = 1; i <= NF; i++)
            if ($i == "Fl") print command " -" $(i + 1) ($(i + 2) == "Ar" ? "=" : "")
    }' > found
equals 'the options of the synopsis'

sed -e 's/.* //' options > wanted
section undorc.1 OPTIONS |
    sed -n -e 's/^\.It Fl \(.\)$/-\1/p' -e 's/^\.It Fl \(-*[A-Za-z]*\) Ar .*/-\1=/p' > found
equals 'the options that are described'

cp queries wanted
items undorc.1 QUERIES Cm > found
equals 'the queries that are described'
sed -n '/^## The queries of `db`/,/^## /s/^| `\([a-z][a-z-]*\)[ `].*/\1/p' "$top/docs/FORMATS.md" > found
equals 'the queries of docs/FORMATS.md'

# Statuses: of the table of one-shot commands, and of that of `status`.
for part in 'One-shot commands' 'Where services stand'; do
    sed -n "/^## $part/,/^## /s/^| \([0-9][0-9]*\) .*/\1/p" "$top/docs/COMMANDS.md"
done > wanted
section undorc.1 'EXIT STATUS' | sed -n 's/^\.It \([0-9]*\)$/\1/p' > found
equals 'statuses'

# Variables of the environment: all that the sources name.
grep -r -h -o --include='*.rt' 'UNDORC_[A-Z]*' "$top/crates" > wanted
items undorc.1 ENVIRONMENT Ev > found
equals 'variables of the environment'

# What the sources tell: words of refusals and faults, each of which is in a page, and in a list of
# diagnostics only what is told.
grep -r -h -o -E --include='*.rt' '"(undorc: |refused )?[A-Z][a-z][A-Za-z]*(\\n| ?\{[a-z]*\}| )*"' \
    "$top"/crates/rc_*/src "$top/crates/undorc/src" |
    sed -e 's/^"undorc: //' -e 's/^"refused //' | sed -e 's/^"//' -e 's/[^A-Za-z].*//' | sort -u > words
cp words wanted
cat "$pages"/*.[15] | grep '^\.' | tr -s ' ' '\n' > found
holds 'man pages'
for page in undorc.1 undorc-sources.5 undorc-live.5 undorc-session.5; do
    items "$page" DIAGNOSTICS Ic > wanted
    cp words found
    holds "the sources, of the diagnostics of $page,"
done

# What the tables of the two documents list first is in the page that names the section in a
# comment, and each section with such a table is named by a page.
sections() {
    sed -n 's/^\.\\" \(docs\/[A-Z]*\.md: .*\)/\1/p' "$@"
}
sections "$pages"/*.[15] > found
for document in docs/FORMATS.md docs/COMMANDS.md; do
    awk -v document="$document" '
        /^## / { name = substr($0, 4) } /^\| `/ { print document ": " name }' "$top/$document"
done > wanted
holds 'comments of man pages'
for page in "$pages"/*.[15]; do
    sections "$page" | sed 's/^[^:]*: //' > named
    awk '
        FNR == NR { named[$0] = 1; next }
        /^## / { inside = (substr($0, 4) in named) }
        inside && /^\| `/ {
            split($0, cells, " \\| ")
            while (match(cells[1], /`[^`]*`/)) {
                print substr(cells[1], RSTART + 1, RLENGTH - 2)
                cells[1] = substr(cells[1], RSTART + RLENGTH)
            }
        }' named "$top/docs/FORMATS.md" "$top/docs/COMMANDS.md" |
        sed -e 's/\[[^]]*\] *//g' -e 's/^refused //' -e 's/^undorc //' -e 's/ .*//' -e 's/^-//' > wanted
    grep '^\.' "$page" | tr -s ' ' '\n' > found
    [ ! -s wanted ] || holds "$(basename "$page"), of the tables of the documents,"
done

# Lists of the pages that are made from these tables.
if python3 "$here/manual.py" --check; then
    passed=$((passed + 1))
else
    failed=$((failed + 1))
    echo 'FAILED: lists of the man pages are not those of the documents: run make pages'
fi

# Words of answers: in the page of sessions.
grep -r -h -o --include='*.rt' 'line([a-z &]*, b"[a-z]*"' "$top/crates/rc_render/src" |
    sed 's/.*"\(.*\)"/\1/' > wanted
grep '^\.' "$pages/undorc-session.5" | tr -s ' ' '\n' > found
holds 'undorc-session.5, of answers,'

if command -v mandoc > /dev/null; then
    wants '' ''
    echo 0 > status
    (cd "$pages" && mandoc -T lint -W all ./*.[15]) > out 2> err || echo $? > status
    judge 'mandoc -T lint' 0
else
    skip 'mandoc is missing (the package mandoc)'
fi

. "$here/completion.sh"
. "$here/documents.sh"
tally
