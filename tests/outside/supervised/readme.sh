# shellcheck shell=sh
# The commands of contrib/SUPERVISOR/README.md, in an empty folder, with what they print; times are masked.
# machine.sh reads this file.
mkdir bin try said
ln -s "$program" bin/undorc

# A command is a line that begins with `$ `, with its text up to a line END; the lines after it are what it prints.
awk '
function ends() { print "} > \"$said/got." number "\" 2>&1 || echo \"status $?\" >> \"$said/got." number "\"" }
/^```/ { inside = !inside; next }
!inside { next }
text { print; if ($0 == "END") { text = 0; ends() } next }
/^\$ / {
    number++
    printf "" > ("said/want." number)
    print substr($0, 3) > ("said/words." number)
    print "{"
    print substr($0, 3)
    if ($0 ~ /<<.END.$/) text = 1
    else ends()
    next
}
{ print > ("said/want." number) }
END { print "echo $! > \"$said/scanner\"" }' "$folder/README.md" > commands
(
    export PATH="$room/bin:$PATH" said="$room/said" contrib="$folder/.."
    cd try
    # A shell of its own, which ends before the supervisor that it starts.
    sh ../commands
) < /dev/null
scanner=$(cat said/scanner)
commands=$(find said -name 'words.*' | wc -l)
holds 'the README has commands' test "$commands" -gt 20
for turn in $(seq "$commands"); do
    : > err
    : > err.wanted
    for told in want got; do sed 's/^undorc: *[0-9.]* s  /undorc: TIME  /' "said/$told.$turn" > "$told"; done
    mv got out
    mv want out.wanted
    echo 0 > status
    judge "README: $(cat "said/words.$turn")" 0
done
