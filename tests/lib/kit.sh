# What scripts share that use the Rattle kit. A script that reads this file works at the top of the repository.

# needs_kit: ends with 127, and says what is missing, where the kit is not there or can't run.
needs_kit() {
    if ! command -v rt > /dev/null; then
        echo 'rt is not on PATH. It is the command of the Rattle kit, which README.md names.' >&2
    elif ! python3 -c 'import shutil' > /dev/null 2>&1; then
        echo 'rt needs python3 with its whole library: on Debian, the package python3.' >&2
    elif [ "$(uname -s) $(uname -m)" != 'Linux x86_64' ]; then
        echo "The Rattle kit needs x86-64 Linux; this is $(uname -s) $(uname -m)." >&2
    else
        return 0
    fi
    exit 127
}

# is_current FILE: whether FILE is there, and no source has changed since it was made.
is_current() {
    [ -f "$1" ] && [ -z "$(find crates crates.txt HANDLES -name out -prune -o -type f -newer "$1" -print 2> /dev/null |
        head -n 1)" ]
}
