# README's commands: what they write, each block in the shell of those before it, and what is said to be typed in a second
# shell in one of its own. program.sh reads this file.
mkdir readme readme/home
cd readme

# The commands of the blocks that have some, and what they are to write; the times of -v are masked. A second shell has
# nothing of the first one, and stands at the top of the repository.
awk '
    /^```/ {
        if (block && apart) print "SECOND" > "run"
        block = !block
        text = told = 0
        if (block && apart) print "env -i HOME=\"$HOME\" PATH=\"$PATH\" top=\"$top\" sh <<\047SECOND\047\ncd \"$top\"" > "run"
        if (!block) apart = 0
        next
    }
    !block { if (/second shell/) apart = 1; else if (/^[^ ]/) apart = 0; next }
    text { print > "run"; if ($0 == "END") text = 0; next }
    /^\$ / { print substr($0, 3) > "run"; text = /<<\047END\047$/; told = 1; next }
    told { print > "wanted" }
' "$top/README.md"
masked() {
    sed 's/^undorc: *[0-9]*\.[0-9]* s  /undorc: TIME s  /' "$1"
}
# The program in the place that README names.
mkdir tree tree/out
ln -s "$program" tree/out/undorc-unproved
ln -s "$top/docs" tree/docs
echo '[ -x out/undorc-unproved ] || exit' | cat - run > run.here
HOME=$PWD/home top=$PWD/tree sh -c 'export top; cd "$top" && . "$0"' "$PWD/run.here" > written 2>&1 || echo "status $?" >> written
masked wanted > out.wanted
masked written > out
: > err
: > err.wanted
echo 0 > status
[ "$(wc -l < run)" -gt 20 ] || echo "no commands were found" >> out
[ "$(grep -c '^SECOND$' run)" -eq 1 ] || echo "no second shell was found" >> out
judge "README's commands" 0

# Its commands for one topic and one row.
sed -n "s,^tests/outside/rows.sh out/undorc-unproved ,,p" "$top/README.md" > rows
while IFS= read -r words; do
    eval "sh '$here/rows.sh' '$program' $words" 2>&1 | sed 's/^[1-9][0-9]* passed/N passed/'
done < rows > out
printf 'N passed, 0 failed, 0 skipped\nN passed, 0 failed, 0 skipped\n' > out.wanted
judge "README's commands that run rows" 0
sh "$here/rows.sh" "$program" plans -r 'nothing is up' > out
sh "$here/rows.sh" "$program" plans -r 'no row has this' >> out || true
printf '%s\n' '3 passed, 0 failed, 0 skipped' \
    'FAILED: no row of plans has a title with: no row has this' '0 passed, 1 failed, 0 skipped' > out.wanted
judge 'one row' 0
cd ..
