# Rows of `undorc compile` on real directories, in a folder of their own; program.sh reads this file,
# and has its functions.
mkdir compiled
cd compiled

# A source without an entry, and the entries of each kind.
tree() {
    rm -rf "$1"
    mkdir "$1"
}
oneshot_at() {
    mkdir "$1"
    printf oneshot > "$1/type"
    printf up > "$1/up"
}
longrun_at() {
    mkdir "$1"
    printf longrun > "$1/type"
    : > "$1/run"
}
bundle() {
    mkdir "$1"
    printf bundle > "$1/type"
    printf '%b' "$2" > "$1/contents"
}

# The text of one oneshot `a` that needs nothing, and of its names.
plain='service a oneshot plain 0 0\nneeds\nup 2\nup\ndown -\n'
compiles() {
    expect 0 "$1" '' '' compile "$2"
}
fails() {
    expect "$1" '' "undorc: $2\n" '' compile "$3"
}

# A source without an entry, and the sample.
tree empty
compiles "$none" empty
compiles "$sample" "$samples/source"
: > out.wanted
: > err.wanted
echo 1 > status
"$program" compile "$samples/source" | cmp - "$samples/sample.txt" > out 2> err && echo 0 > status
judge 'the sample as directories is the sample as text' 0
echo 'raise db log net root web' > out.wanted
echo 1 > status
"$program" compile "$samples/source" 2> /dev/null | "$program" plan site > out 2> err && echo 0 > status
judge 'what is compiled is planned on' 0

# Links: one to a directory is an entry of its own name, one to a file is read.
tree store
oneshot_at store/a
tree links
ln -s ../store/a links/b
compiles "${one}service b oneshot plain 0 0\\nneeds\\nup 2\\nup\\ndown -\\n$last" links
tree whole
oneshot_at whole/a
ln -s ../../store/a/up whole/a/down
compiles "${one}service a oneshot plain 0 0\\nneeds\\nup 2\\nup\\ndown 2\\nup\\n$last" whole
ln -s whole linked
compiles "${one}service a oneshot plain 0 0\\nneeds\\nup 2\\nup\\ndown 2\\nup\\n$last" linked

# Links that lead nowhere: to nothing, through a file, to themselves. They are no entry, and as a file
# or a folder they are missing.
tree lost
oneshot_at lost/a
ln -s nowhere lost/b
ln -s a/up/x lost/c
ln -s d lost/d
compiles "$one$plain$last" lost
for file in down timeout-up flag-essential dependencies dependencies.d producer-for; do
    ln -s nowhere "lost/a/$file"
    compiles "$one$plain$last" lost
    rm "lost/a/$file"
    ln -s up/x "lost/a/$file"
    compiles "$one$plain$last" lost
    rm "lost/a/$file"
    ln -s "$file" "lost/a/$file"
    compiles "$one$plain$last" lost
    rm "lost/a/$file"
done
rm lost/a/up
ln -s nowhere lost/a/up
fails 1 'NoUp a' lost
ln -sf nowhere lost/a/type
fails 1 'NoType a' lost

# Entries that begin with a dot, and entries that are no directories, are skipped.
tree dots
oneshot_at dots/a
mkdir dots/.b
ln -s .c dots/.c
: > dots/.type
: > dots/readme
: > dots/s6rc-x
compiles "$one$plain$last" dots
mkdir dots/a/dependencies.d
: > dots/a/dependencies.d/.b
compiles "$one$plain$last" dots

# Files that no table names, and those of another kind, are not looked at.
tree more
oneshot_at more/a
printf '\0' > more/a/readme
printf '\0' > more/a/run
printf -- '-' > more/a/contents
mkdir more/a/data more/a/contents.d
: > "more/a/$strange"
: > "more/a/contents.d/$strange"
compiles "$one$plain$last" more

# Both forms of a list, and what stands in a folder of names: a file, a directory, a link to nothing.
tree both
oneshot_at both/a
printf 'e\n# b\n\t c \nb' > both/a/dependencies
mkdir both/a/dependencies.d both/a/dependencies.d/d
: > both/a/dependencies.d/b
ln -s nowhere both/a/dependencies.d/e
for name in b c d e; do oneshot_at "both/$name"; done
text="${first}services 5\\nservice a oneshot plain 0 0\\nneeds b c d e\\nup 2\\nup\\ndown -\\n"
for name in b c d e; do text="${text}service $name oneshot plain 0 0\\nneeds\\nup 2\\nup\\ndown -\\n"; done
compiles "$text$last" both
tree held
oneshot_at held/a
longrun_at held/b
bundle held/g 'a\n'
mkdir held/g/contents.d
: > held/g/contents.d/b
: > held/g/contents.d/a
compiles "${first}services 2\\n${plain}service b longrun plain 0 0\\nneeds\\nproducer -\\nbundles 1\\nbundle g a b\\nend\\n" held

# What counts by being there may be a directory.
tree there
mkdir there/a there/a/run there/a/flag-essential
echo longrun > there/a/type
compiles "${one}service a longrun essential 0 0\\nneeds\\nproducer -\\n$last" there

# Sources that can't be listed are told without a name.
: > file
fails 111 Io nowhere
fails 111 Io file
fails 111 Io ''
fails 111 Io "$(printf '%0256d' 0)"
tree unread
oneshot_at unread/a
mkdir "unread/$strange"
fails 111 Io unread
rmdir "unread/$strange"
: > "unread/$strange"
fails 111 Io unread
rm "unread/$strange"
mkdir "unread/.$strange"
fails 111 Io unread
rmdir "unread/.$strange"
compiles "$one$plain$last" unread

# Files and folders that can't be read are told with their entry.
for file in type up down timeout-up dependencies consumer-for pipeline-name; do
    tree unread
    oneshot_at unread/a
    rm -f "unread/a/$file"
    mkdir "unread/a/$file"
    fails 111 'Io a' unread
done
tree unread
oneshot_at unread/a
: > unread/a/dependencies.d
fails 111 'Io a' unread
rm unread/a/dependencies.d
mkdir unread/a/dependencies.d
: > "unread/a/dependencies.d/$strange"
fails 111 'Io a' unread
rm "unread/a/dependencies.d/$strange"
: > "unread/a/dependencies.d/.$strange"
fails 111 'Io a' unread

# What may not be read: asked as nobody where this runs as root, who may read all. What is only to be there may be shut.
guest=
if [ "$(id -u)" -eq 0 ]; then guest='setpriv --reuid=65534 --regid=65534 --clear-groups'; fi
if $guest true; then
    known=$program
    umask 022
    chmod 755 .
    cp "$program" shut-out
    printf '#!/bin/sh\nexec %s ./shut-out "$@"\n' "$guest" > guest
    chmod 755 shut-out guest
    program=./guest
    for file in type up dependencies; do
        tree shut
        oneshot_at shut/a
        : > shut/a/dependencies
        compiles "$one$plain$last" shut
        chmod 000 "shut/a/$file"
        fails 111 'Io a' shut
    done
    tree shut
    mkdir shut/.b shut/a
    echo longrun > shut/a/type
    : > shut/a/run
    : > shut/a/flag-essential
    chmod 000 shut/.b shut/a/run shut/a/flag-essential
    compiles "${one}service a longrun essential 0 0\\nneeds\\nproducer -\\n$last" shut
    mkdir shut/a/dependencies.d
    chmod 000 shut/a/dependencies.d
    fails 111 'Io a' shut
    chmod 755 shut/a/dependencies.d
    chmod 000 shut/a
    fails 111 'Io a' shut
    chmod 755 shut/a
    chmod 000 shut
    fails 111 Io shut
    chmod 755 shut shut/.b
    program=$known
else
    failed=$((failed + 1))
    echo "FAILED: what may not be read is not shown, since '$guest' does not run"
fi

# Refusals of files and names, each of the first entry in byte order that has one.
tree wrong
mkdir wrong/s6rc-x
fails 1 'BadName s6rc-x' wrong
mkdir wrong/b
fails 1 'NoType b' wrong
mkdir "wrong/a b"
fails 1 'BadName a b' wrong
mkdir wrong/a
fails 1 'NoType a' wrong
printf 'oneshot\n\n' > wrong/a/type
fails 1 'BadType a' wrong
printf longrun > wrong/a/type
fails 1 'NoRun a' wrong
printf oneshot > wrong/a/type
fails 1 'NoUp a' wrong
printf 'a\0b' > wrong/a/up
fails 1 'NotText a' wrong
printf '\377' > wrong/a/up
fails 1 'NotText a' wrong
head -c 65537 /dev/zero | tr '\0' 'x' > wrong/a/up
fails 1 'TooLong a' wrong

# What is no plain file is not opened: a pipe, a socket or a device is a fault, and nobody is waited for.
for file in up type down timeout-up dependencies; do
    tree fifos
    oneshot_at fifos/a
    rm -f "fifos/a/$file"
    mkfifo "fifos/a/$file"
    expect 111 '' 'undorc: Io a\n' '' compile fifos
    rm "fifos/a/$file"
    ln -s /dev/null "fifos/a/$file"
    fails 111 'Io a' fifos
done
tree fifos
oneshot_at fifos/a
mkfifo fifos/a/event fifos/a/flag-essential
compiles "${one}service a oneshot essential 0 0\\nneeds\\nup 2\\nup\\ndown -\\n$last" fifos
rm wrong/a/up
printf up > wrong/a/up
printf 1s > wrong/a/timeout-up
fails 1 'BadTimeout a' wrong
printf 4294967296 > wrong/a/timeout-up
fails 1 'BadTimeout a' wrong
rm wrong/a/timeout-up
printf 'c\n-d\n' > wrong/a/dependencies
fails 1 'BadName a' wrong
rm wrong/a/dependencies
mkdir wrong/a/dependencies.d
: > wrong/a/dependencies.d/-d
fails 1 'BadName a' wrong
rm -r wrong/a/dependencies.d
printf 'c\nc\n' > wrong/a/producer-for
fails 1 'BadName a' wrong
for file in down type timeout-up dependencies; do
    tree wide
    oneshot_at wide/a
    head -c 65537 /dev/zero | tr '\0' '\n' > "wide/a/$file"
    fails 1 'TooLong a' wide
done
tree wide
oneshot_at wide/a
head -c 65535 /dev/zero | tr '\0' '\n' > wide/a/dependencies
printf b >> wide/a/dependencies
fails 1 'UnknownIn a b' wide
tree long
oneshot_at long/a
head -c 65536 /dev/zero | tr '\0' 'x' > long/a/up
printf 4294967295 > long/a/timeout-down
compiles "${one}service a oneshot plain 0 4294967295\\nneeds\\nup 65536\\n$(cat long/a/up)\\ndown -\\n$last" long

# Entries are in the order of their names' bytes, in whatever order they were made.
tree bytes
for name in é aa a Z B; do oneshot_at "bytes/$name"; done
text="${first}services 5\\n"
for name in B Z a aa é; do text="${text}service $name oneshot plain 0 0\\nneeds\\nup 2\\nup\\ndown -\\n"; done
compiles "$text$last" bytes

# Two sources: an entry comes once, and the first fault in their order is told.
tree first
oneshot_at first/b
tree second
oneshot_at second/a
expect 0 "${first}services 2\\n${plain}service b oneshot plain 0 0\\nneeds\\nup 2\\nup\\ndown -\\n$last" '' '' compile first second
expect 1 '' 'undorc: Twice b\n' '' compile first second first
expect 111 '' 'undorc: Io\n' '' compile first nowhere first
rm first/b/up
expect 1 '' 'undorc: NoUp b\n' '' compile first nowhere
expect 111 '' 'undorc: Io\n' '' compile nowhere first

# A need on a bundle is one on all that it holds, through bundles in bundles; and a pipeline in the sample.
empty_needs='oneshot plain 0 0\nneeds\nup 2\nup\ndown -\n'
tree deep
oneshot_at deep/a
printf g > deep/a/dependencies
oneshot_at deep/b
oneshot_at deep/c
bundle deep/g 'h\nb\n'
bundle deep/h 'c\n'
bundle deep/nil ''
text='service a oneshot plain 0 0\nneeds b c\nup 2\nup\ndown -\n'"service b ${empty_needs}service c $empty_needs"
compiles "${first}services 3\\n${text}bundles 3\\nbundle g b c\\nbundle h c\\nbundle nil\\nend\\n" deep
printf a > deep/c/dependencies
fails 1 'Cycle a c' deep
cp -r "$samples/source" piped
printf weblog > piped/log/pipeline-name
compiles "$(with 'bundles 1' 'bundles 2' | sed 's/bundle site web/bundle site web\\nbundle weblog log web/')" piped

# 4,096 services, none needing another, in chains both ways, and one more. What is compiled is read
# by both readers.
tree chain
(cd chain && seq -f 's%04.0f' 1 4096 | xargs mkdir)
# chained STEP: each service needs the one so many places on.
chained() {
    seq -f '%g' 1 4096 | awk -v step="$1" '{
        path = sprintf("chain/s%04d/", $1)
        printf "oneshot" > (path "type")
        printf "" > (path "up")
        needed = $1 + step
        if (step && needed >= 1 && needed <= 4096) printf "s%04d\n", needed > (path "dependencies")
        else printf "" > (path "dependencies")
        close(path "type"); close(path "up"); close(path "dependencies")
    }'
    text=$(awk -v step="$1" 'BEGIN {
        for (i = 1; i <= 4096; i++) {
            needed = step && i + step >= 1 && i + step <= 4096 ? sprintf(" s%04d", i + step) : ""
            printf "service s%04d oneshot plain 0 0\\nneeds%s\\nup 0\\n\\ndown -\\n", i, needed
        }
    }')
    text="${first}services 4096\\n$text$last"
    compiles "$text" chain
    is_database "$text"
}
# is_database TEXT: a text is a database, to the reader of a whole text and to that of a front.
is_database() {
    printf '%b' "$1" > base
    expect 0 '' '' '' db -b base check
    expect 0 '' '' "$1" db check
}
chained 0
chained 1
chained -1
oneshot_at chain/s4097
fails 1 TooMany chain

# 4,096 bundles, one more, and a pipeline of a further name and of one of theirs.
tree many
(cd many && seq -f 'b%g' 1000 5095 | xargs mkdir)
for entry in many/b*; do printf bundle > "$entry/type"; done
text=$(seq -f 'bundle b%g' 1000 5095 | sed 's/$/\\n/' | tr -d '\n')
compiles "${first}services 0\\nbundles 4096\\n${text}end\\n" many
is_database "${first}services 0\\nbundles 4096\\n${text}end\\n"
bundle many/b5096 ''
fails 1 TooMany many
rm -r many/b5096
longrun_at many/p
printf q > many/p/producer-for
longrun_at many/q
printf p > many/q/consumer-for
printf pipe > many/q/pipeline-name
fails 1 TooMany many
printf b1000 > many/q/pipeline-name
fails 1 'PipelineName q' many

# What stands at a path is asked once of each file, and of each entry but one, which shows that there is any.
if command -v strace > /dev/null; then
    tree asked
    for name in a b c d; do oneshot_at "asked/$name"; done
    ASAN_OPTIONS=detect_leaks=0 strace -f -o trace -e trace=statx,stat,lstat,newfstatat "$program" compile asked > out
    sed -n 's/.*"\(asked\/[a-d][^"]*\)".*/\1/p' trace | sort > paths
    uniq -d paths | sed 1d > out
    [ "$(sort -u paths | wc -l)" -eq 12 ] || echo 'not all are asked' >> out
    wants '' ''
    : > err
    echo 0 > status
    judge 'compile asks once what stands at a path' 0
else
    skip 'how often compile asks what stands at a path, which takes strace'
fi

# Wrong command lines, and devices that fail.
wrong compile
wrong compile -x
wrong compile empty -b base
prints_help compile --help
says '^Usage: undorc compile \[OPTIONS\] <SOURCE>\.\.\.$'
wrong compile "$strange"
says '^undorc: a word of the command line is not UTF-8$'
tree ./-x
expect 0 "$none" '' '' compile -- -x
expect 0 "$none" '' 'what is on the input is left there\n' compile empty
: > out
: > out.wanted
echo 'undorc: Write' > err.wanted
echo 0 > status
"$program" compile empty > /dev/full 2> err || echo $? > status
judge 'a full output' 111
cd ..
