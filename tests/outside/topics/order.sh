# In which order a file is written, synced and renamed, by a trace of the calls. program.sh reads this file.
# shellcheck source=../trees.sh
. "$here/trees.sh"
mkdir order
cd order
printf '%b' "$sample" > base
mkdir other
: > in

# traced WORDS..: a run on the input `in`; `calls` has the calls on files that are kept and on
# standard output, as `CALL FILE`, a call that comes several times in a row once
traced() {
    echo 0 > status
    strace -f -y -s 8 -o trace \
        -e trace=write,writev,pwrite64,fsync,fdatasync,rename,renameat,renameat2,ftruncate \
        "$program" "$@" < in > answer 2> err || echo $? > status
    awk -v folder="$PWD" '
        function name(text) {
            sub(".*<", "", text)
            sub(">.*", "", text)
            if (text == folder) return "."
            sub("^" folder "/", "", text)
            return text
        }
        / = -1 / || /^[0-9]+ +(\+\+\+|---) / { next }
        {
            sub(/^[0-9]+ +/, "")
            call = $0
            sub(/\(.*/, "", call)
            if (call ~ /^rename/) {
                split($0, words, "\"")
                for (i = 2; i <= 4; i += 2) sub("^" folder "/", "", words[i])
                line = "rename " words[2] " " words[4]
            } else {
                first = $0
                sub(/^[^(]*\(/, "", first)
                sub(/[,)].*/, "", first)
                sub(/^p?writev?(64)?$/, "write", call)
                sub(/^fdatasync$/, "fsync", call)
                line = call " " name(first)
            }
            if (line ~ /^write .*\/dev\/null$/ || line ~ /\.lock$/ || line == last) next
            print last = line
        }' trace > calls
}

# calls_kept FILE FOLDER: the calls by which a text comes into a file
calls_kept() {
    printf '%s\n' "write $1.new" "fsync $1.new" "rename $1.new $1" "fsync $2"
}

# ordered WHAT: `calls` against `calls.wanted`
ordered() {
    cp calls out
    cp calls.wanted out.wanted
    : > err.wanted
    judge "$1" 0
}

if ! strace -o trace true 2> err; then
    skip 'the order of writes, which takes strace and the right to trace'
else
    # A session writes its file before the first line, and after each line that altered it, before the
    # answer. A line that alters nothing writes nothing. Where the file has the text already, a file
    # beside it finds out whether it could be written.
    printf 'change log\nlive\nundo\n' > in
    traced session -b base -x none -l live
    { calls_kept live .; calls_kept live .; echo 'write answer'; calls_kept live .; echo 'write answer'; } > calls.wanted
    ordered 'a session of three lines, and the calls by which it is kept'
    # The text of a session becomes a history before anything moves. A new file first gets the text of its session.
    : > in
    traced change net -b base -x none -l live
    { calls_kept live .; calls_kept live .; echo 'write answer'; } > calls.wanted
    ordered 'a one-shot command that begins a history, and the calls by which it is kept'
    traced change log -b base -x none -l live
    { calls_kept live .; echo 'write answer'; } > calls.wanted
    ordered 'a one-shot command, and the calls by which it is kept'
    ln -s other/place link
    traced change net -b base -x none -l link
    for turn in 1 2 3; do calls_kept other/place other; done > calls.wanted
    echo 'write answer' >> calls.wanted
    ordered 'a one-shot command whose file stands behind a link'
    # An update writes it before each answer, too: the history that begins, what is lowered, the new
    # database, and what is raised; and at last that its state is one to stop at.
    makes_plain live
    sed '/^service net /{n;s/ root$//;}' base > new
    traced update -b base -B new -x none -l live
    {
        calls_kept live .
        calls_kept live .
        echo 'write answer'
        calls_kept live .
        calls_kept live .
        echo 'write answer'
        calls_kept live .
    } > calls.wanted
    ordered 'an update that begins a history, and the calls by which its file is kept'
    traced update -b new -B base -x none -l live
    { calls_kept live .; echo 'write answer'; calls_kept live .; calls_kept live .; echo 'write answer'; calls_kept live .; } > calls.wanted
    ordered 'an update, and the calls by which its file is kept'
    traced compile -o db "$samples/source"
    calls_kept db . > calls.wanted
    ordered 'a database, and the calls by which it is written'
    traced live -b base -l live
    echo 'write answer' > calls.wanted
    ordered 'a look writes nothing'
    # A run is logged before it happens: a take before its program is started, an end before the next take. Before that the
    # room of its lines is taken. The log gives it back before the file is replaced, and is emptied only once that has the
    # new text.
    run_logged() {
        echo 0 > status
        strace -f -y -s 64 -o trace -e trace=pwrite64,execve,rename,renameat2,ftruncate,unlink,unlinkat \
            "$program" "$@" < in > answer 2> err || echo $? > status
        awk '
            / = -1 / { next }
            /pwrite64\(.*\/live\.run>, "undorc-live/ { print "head"; next }
            /pwrite64\(.*\/live\.run>, "  / { print "room"; next }
            /ftruncate\(.*\/live\.run>, [1-9]/ { print "give"; next }
            /pwrite64\(.*\/live\.run>, "(take|done) / {
                sub(/.*live\.run>, "/, "")
                sub(/\\n".*/, "")
                print
                next
            }
            /execve\("\/bin\/sh"/ { print "start"; next }
            /rename.*"[^"]*live\.new".*"[^"]*live"/ { print "replace"; next }
            /ftruncate\(.*\/live\.run>, 0\)/ { line = "empty"; if (last != line) print line; last = line; next }
            /unlink.*live\.run"/ { print "remove"; next }
            { last = "" }' trace | uniq > calls
    }
    rm -rf live* tree
    begin_tree
    oneshot a true
    oneshot b true a
    "$program" compile tree > two
    : > in
    "$program" change -b two -x none -l live < in > /dev/null
    run_logged change b -w 1 -b two -l live
    printf '%s\n' room empty head room 'take 1 a' start 'done 1 a ok' 'take 1 b' start 'done 1 b ok' \
        give replace empty remove > calls.wanted
    ordered 'a run, and its log'
    # A recovery replaces the file, and then removes the log; nothing is started before that.
    "$program" undo -b two -l live < in > /dev/null
    cp live before
    { session_text live; printf -- '-t 1 -u change b\ntake 1 a\ndone 1 a ok\n'; } > live.run
    run_logged change b -w 1 -b two -l live
    printf '%s\n' give replace remove room empty head room 'take 1 b' start 'done 1 b ok' give replace empty remove > calls.wanted
    holds 'the recovery is told' grep -qx 'undorc: Recovered' err
    : > err
    ordered 'a recovery, and then a run'
fi
cd ..
rm -r order
