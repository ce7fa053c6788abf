# Completion against the program and the sample: what is offered in bash without a terminal, in fish
# where it is there, and what zsh, where it is there, hands to its own functions. pages.sh reads
# this file: `own`, `commands`, `options` and `queries` are what the program has.
printf '%b' "$sample" > base
{
    printf 'undorc-db 1\nservices 3\n'
    for name in "a\$(>made)'b" 'tty@1' 'x:y'; do
        printf 'service %s oneshot plain 0 0\nneeds\nup 4\ntrue\ndown -\n' "$name"
    done
    printf 'bundles 0\nend\n'
} > odd
mkdir bin empty
ln -s "$program" bin/undorc
cat > ask.bash <<'END'
# What is offered after the line, one a line.
. "$1"
COMP_LINE=$2 COMP_POINT=${#2} COMP_WORDBREAKS=$3
_undorc
[[ ${#COMPREPLY[@]} -eq 0 ]] || printf '%s\n' "${COMPREPLY[@]}"
END
printf 'source $argv[1]\ncomplete -C $argv[2]\n' > ask.fish
cat > ask.zsh <<'END'
# What is handed to `_arguments` for a command, and to `_describe` with none, one a line.
words=(undorc $2)
_call_program() { shift; eval "$*" }
_describe() { print -rl -- ${(P)4} }
_arguments() {
    [[ $1 != -C || $state == words ]] || { state=${asked:+words}; state=${state:-command}; words=($asked); return 1 }
    print -rl -- "$@"
}
asked=$2
. $1
END
breaks=
path=$room/bin:$PATH

# offered SHELL LINE: what is offered after a line, one a line, in `found`.
offered() {
    (
        cd empty
        PATH=$path HOME=$room
        export PATH HOME
        case $1 in
            bash) bash --norc --noprofile ../ask.bash "$contrib/undorc.bash" "$2" "$breaks" ;;
            fish) fish --no-config ../ask.fish "$contrib/undorc.fish" "$2" | cut -f 1 ;;
        esac
    ) > found 2>&1 || echo 'a wrong status' >> found
    [ -s found ] || echo nothing > found
}

# offers LINE WORD..: what each shell offers after a line.
offers() {
    line=$1
    shift
    for shell in $shells; do
        printf '%s\n' "$@" > wanted
        offered "$shell" "$line"
        equals "$shell, behind '$line'"
    done
}

# options_of COMMAND: what is wanted of it.
options_of() {
    sed -n "s/^$1 \(-[^=]*\).*/\1/p" options
    printf '%s\n' -h --help
}

shells=
for shell in bash fish; do
    if command -v "$shell" > /dev/null; then
        shells="$shells $shell"
    else
        skip "completion in $shell, which is missing (the package $shell)"
    fi
done

echo 'completion'
for shell in $shells; do
    cp commands wanted
    offered "$shell" 'undorc '
    equals "$shell, the commands"
    cp queries wanted
    offered "$shell" 'undorc db '
    equals "$shell, the queries"
    while read -r command; do
        options_of "$command" > wanted
        offered "$shell" "undorc $command -"
        equals "$shell, the options of $command"
    done < own
    # The value of an option begins with no dash; after an option without one options may follow.
    [ "$shell" = bash ] || continue
    while read -r command option; do
        case $option in *=) echo nothing > wanted ;; *) options_of "$command" > wanted ;; esac
        offered "$shell" "undorc $command ${option%=} -"
        equals "$shell, behind $option of $command"
    done < options
done

# asks COMMAND: what zsh hands to its own functions for a command, in `handed`.
asks() {
    PATH=$path zsh -f ask.zsh "$contrib/_undorc" "$@" > handed 2>&1 < /dev/null || true
}

if command -v zsh > /dev/null; then
    asks
    cp commands wanted
    sed 's/:.*//' handed > found
    equals 'zsh, the commands'
    while read -r command; do
        asks "$command"
        sed -n -e 's/^\(([^)]*)\)*\**\(-[A-Za-z]\)+\[.*/\2=/p' -e 's/^\(--[a-z]*=\)\[.*/\1/p' -e 's/^\(([^)]*)\)*\(-[A-Za-z]\)\[.*/\2/p' \
            handed | grep -v -x -e -h | sed "s/^/$command /"
    done < own > found
    cp options wanted
    equals 'zsh, the options'
    asks db
    sed -n 's/^1:query:(\(.*\))$/\1/p' handed | tr ' ' '\n' > found
    cp queries wanted
    equals 'zsh, the queries'
else
    skip 'completion in zsh, which is missing (the package zsh)'
fi

echo 'names'
UNDORC_DB=$room/base
export UNDORC_DB
offers 'undorc change w' web
offers 'undorc change ' db log net root site web
offers 'undorc plan -d web n' net
offers 'undorc db type s' site
offers 'undorc db timeout ' db log net root web
offers 'undorc db flags w' web
offers 'undorc db contents ' site
offers 'undorc db script ' net root
offers 'undorc db pipeline ' db log web
offers 'undorc db list o' oneshots
offers 'undorc db list all o' nothing
offers 'undorc db type net w' nothing
offers 'undorc db check w' nothing
offers 'undorc db -l base dot w' nothing
offers 'undorc db dependencies web l' log
offers 'undorc db -d all-dependencies net web d' db
offers 'undorc db atomics web s' site
offers 'undorc session -x n' none
offers 'undorc session -x up:w' up:web
offers 'undorc change -x up:web,down:ne' up:web,down:net
offers 'undorc undo w' nothing
offers 'undorc version ' nothing
breaks=" \"'@><=;|&(:"
printf '%s\n' web > wanted
offered bash 'undorc change -x up:web,down:w'
equals 'bash, which breaks words at a colon'
breaks=
unset UNDORC_DB
offers "undorc change -b $room/base -v we" web
offers "undorc db -b $room/base -d dependencies w" web
offers "undorc change -b$room/base we" web
offers 'undorc change w' nothing
offers "undorc change -b '$room/base' \"we" web
offers 'undorc db -b ' nothing

# Names are words, and nothing of them is run.
offers "undorc change -b $room/odd t" tty@1
offered bash "undorc change -b $room/odd a"
printf '%s\n' "a\\\$\\(\\>made\\)\\'b" > wanted
equals 'bash, a name with odd bytes'
printf '%s\n' "y" > wanted
breaks=" \"'@><=;|&(:"
offered bash "undorc change -b $room/odd x:"
equals 'bash, a name with a colon'
printf '%s\n' "1" > wanted
offered bash "undorc change -b $room/odd tty@"
equals 'bash, a name with an at sign'
ls empty > found
echo nothing >> found
echo nothing > wanted
equals 'completion makes nothing'
