# What the documents say of the sources: each crate of crates.txt stands in the tree of docs/ARCHITECTURE.md and in the
# tables of docs/PROOF.md, and each definition and call that docs/MODEL.md names is there, each call that
# docs/ARCHITECTURE.md counts, each call, clause and definition of docs/COMMAND.md, and each file that any names.
# pages.sh reads this file.

# The crates of the product, and those that test.
grep -v '^#' "$top/crates.txt" | sed 's/:.*//' > crates
grep -x scenarios crates > testing
grep -v -x scenarios crates > product

# firsts_of FILE: the names of crates in the first cells of its tables.
firsts_of() {
    sed -n 's/^| \(`[^|]*\) |.*/\1/p' "$1" | grep -o '`[a-z_]*`' | tr -d '`' | grep -E '^(rc_[a-z]*|undorc)$'
}

echo documents
cp product wanted
awk '/^```/ { if (inside) exit; inside = 1; next } inside && $1 ~ /^(rc_|undorc)/ { print $1 }' \
    "$top/docs/ARCHITECTURE.md" > found
equals 'the tree of docs/ARCHITECTURE.md'
cp testing wanted
grep '^The test program .* stands at the top' "$top/docs/ARCHITECTURE.md" | grep -o '`scenarios`' | tr -d '`' > found
equals 'the tests of docs/ARCHITECTURE.md'
# The program itself promises nothing of its own.
grep -v -x undorc product > wanted
firsts_of "$top/docs/PROOF.md" > found
equals 'the crates of docs/PROOF.md'
# A heading of docs/MODEL.md may name a crate that is none any more, and each crate with definitions is named there.
while read -r crate; do
    [ ! -d "$top/crates/$crate/specs" ] || echo "$crate"
done < product > wanted
grep -o -E '`(rc|cmd)_[a-z]*`' "$top/docs/MODEL.md" | tr -d '`' > found
holds 'docs/MODEL.md'
cp found wanted
cp product found
holds 'crates.txt, of the crates of docs/MODEL.md,'

# The calls from `main` to a run are as docs/ARCHITECTURE.md counts them.
echo counted > wanted
{ "$top/tests/gate/calls.py" && echo counted; } > found
equals 'the calls of docs/ARCHITECTURE.md'

# Files that documents name are there.
grep -h -o -E '`(tests|docs|contrib|packaging|man|crates)/[A-Za-z0-9_./-]*`' "$top"/*.md "$top"/docs/*.md "$top"/contrib/*.md |
    tr -d '`' | grep -v -e '/out/' -e /TOPIC -e docs/WORDS.md | sort -u > wanted
while read -r file; do
    [ ! -e "$top/$file" ] || echo "$file"
done < wanted > found
holds 'the repository, of the files that documents name,'

# The scripts of the samples can run twice: each `up` in its order, and then each `down`, ends the second time as the
# first. `run_text TEXT` runs one as its runner does.
run_text() {
    place=$PWD/samples
    case $1 in
        importas*) set -- execlineb -Pc "$1" ;;
        *) set -- sh -c "$1" ;;
    esac
    env -C "$place" MACHINE="$place" UNDORC_ROOT="$place" "$@" > /dev/null 2>&1 < /dev/null
}
: > wanted
: > found
for document in README.md docs/TUTORIAL.md docs/S6RC.md contrib/machine/README.md man/undorc-sources.5; do
    sed -n "s,^[$] echo '\\(.*\\)' > [a-z]*/\\([a-z-]*\\)/\\(up\\|down\\)$,\\3 \\2 \\1,p" "$top/$document" > texts
    [ -s texts ] || echo "$document has scripts" >> wanted
    rm -rf samples
    mkdir samples
    for wanted_way in up down; do
        while read -r way name text; do
            [ "$way" = "$wanted_way" ] || continue
            first=0 second=0
            run_text "$text" || first=$?
            run_text "$text" || second=$?
            echo "$document: $way of $name ends with $first" >> wanted
            echo "$document: $way of $name ends with $second" >> found
        done < texts
    done
done
equals 'the scripts of samples, which can run twice'

# Lengths of paragraphs, sentences and cells, and what scripts make.
if python3 "$top/tests/gate/prose.py"; then
    passed=$((passed + 1))
else
    failed=$((failed + 1))
    echo 'FAILED: documents have parts that are too long, or are not what is made (make crates; tests/bench/figures.sh)'
fi

# Lines of sources and proofs have at most 100 columns.
if python3 "$top/tests/gate/columns.py" --check; then
    passed=$((passed + 1))
else
    failed=$((failed + 1))
    echo 'FAILED: lines are too long (tests/gate/columns.py breaks them)'
fi

# The comment of a function says what it does.
if python3 "$top/tests/gate/comments.py"; then
    passed=$((passed + 1))
else
    failed=$((failed + 1))
    echo 'FAILED: comments of functions begin with a question word or an article'
fi

# No two lemmas have one statement, and functions have at most six arguments.
if python3 "$top/tests/gate/lemmas.py"; then
    passed=$((passed + 1))
else
    failed=$((failed + 1))
    echo 'FAILED: lemmas stand twice, or functions have too many arguments'
fi

# The answers for the longest contracts say first what is proved, and why it is hard.
if python3 "$top/tests/gate/heads.py"; then
    passed=$((passed + 1))
else
    failed=$((failed + 1))
    echo 'FAILED: answers for a long contract do not say what is proved'
fi

# The list of definitions, which is not kept, can be made: it has each module of rc_model with a definition.
python3 "$top/tests/gate/words.py" > words.md
sed -n 's/^## `rc_model`: `\(.*\)`/\1/p' words.md > found
sed -n 's/^pub mod //p' "$top/crates/rc_model/specs/Lib.antt" > wanted
holds 'the list of make model'

# What docs/PROOF.md and docs/COMMAND.md show of the sources stands there.
find "$top"/crates/*/src -name '*.rt' -exec cat {} + > sources
for document in PROOF COMMAND; do
    awk '/^```/ { inside = !inside; next } inside { sub(/^ */, ""); print }' "$top/docs/$document.md" > wanted
    cat sources "$top"/crates/*/specs/*.antt | sed 's/^ *//' > found
    holds "the sources, of what docs/$document.md shows,"
done

# The definitions of a crate's modules, and the variants of their types, as lines `CRATE MODULE NAME`; and what calls, types
# and clauses of the sources are named.
for file in "$top"/crates/*/specs/*.antt; do
    crate=${file%/specs/*}
    module=${file##*/}
    sed -n -E -e "s/^(abbrev pub|unfoldable pub|abbrev unfoldable pub|pub record|pub data|pub) ([^ :({]*).*/${crate##*/} ${module%.antt} \2/p" \
        -e "s/^  ([A-Z][A-Za-z]*) :.*/${crate##*/} ${module%.antt} \1/p" "$file"
done > defined
grep -o -E '((fn|struct|enum|trait|type|mod|ensures|ghost invariant|ghost) [A-Za-z_]+|^ +[A-Z][A-Za-z]*[(,])' sources |
    sed -e 's/[(,]$//' -e 's/.* //' > called
sed 's/.* //' defined >> called
cat called crates > found
for document in ARCHITECTURE COMMAND; do
    grep -o '`[A-Za-z_:]*`' "$top/docs/$document.md" | tr -d '`' | sed 's/.*:://' | grep -E '^.{4,}$' > wanted
    holds "the sources, of the names in docs/$document.md,"
done
# The clauses of the calls in the first table of docs/COMMAND.md stand in the contracts of these calls.
echo held > wanted
{ "$top/tests/gate/clauses.py" && echo held; } > found
equals 'the clauses of docs/COMMAND.md'
# Those of docs/MODEL.md: after a module, up to the next semicolon, stand its definitions. The crate is the one that was named
# last in the paragraph, else one of those of the heading.
awk '
    FILENAME == "defined" || FILENAME == "called" { is[$0] = 1; next }
    FNR == 1 { for (line in is) { split(line, parts, " "); if (parts[3] != "") has[parts[1] " " parts[2]] = 1 } }
    function stands(module,  i) {
        if (crate != "") { if ((crate " " module) in has) return }
        else for (i = 1; i <= count; i++) if ((heads[i] " " module) in has) return
        print heads[1], (crate == "" ? "" : "of " crate " "), "has no specs/" module
    }
    function look(name,  i) {
        if (module == "") {
            sub(/.*::/, "", name)
            if (!(name in is)) print heads[1] ": " name
            return
        }
        if (crate != "") { if ((crate " " module " " name) in is) return }
        else for (i = 1; i <= count; i++) if ((heads[i] " " module " " name) in is) return
        print heads[1], (crate == "" ? "" : "of " crate " "), "specs/" module ": " name
    }
    /^## / {
        count = 0
        text = $0
        while (match(text, /`(rc|cmd)_[a-z]*`/)) {
            heads[++count] = substr(text, RSTART + 1, RLENGTH - 2)
            text = substr(text, RSTART + RLENGTH)
        }
        next
    }
    /^\*\*/ {
        crate = module = ""
        text = substr($0, index($0, "** (") + 4)
        depth = 1
        for (i = 1; i <= length(text) && depth > 0; i++) {
            letter = substr(text, i, 1)
            if (letter == "(") depth++
            if (letter == ")") depth--
            if (letter == ";") module = ""
            if (letter != "`") continue
            word = substr(text, i + 1)
            word = substr(word, 1, index(word, "`") - 1)
            i += length(word) + 1
            if (word ~ /^(rc|cmd)_[a-z]*$/) crate = word
            else if (word ~ /^specs\//) { module = substr(word, 7); stands(module) }
            else look(word)
        }
    }' defined called "$top/docs/MODEL.md" > lost
if [ -s lost ] || [ "$(wc -l < defined)" -lt 100 ]; then
    failed=$((failed + 1))
    echo 'FAILED: docs/MODEL.md names what is nowhere:'
    cat lost
else
    passed=$((passed + 1))
fi
