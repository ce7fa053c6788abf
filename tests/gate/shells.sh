#!/bin/sh
# Looks through all scripts of the repository by shellcheck, as `.shellcheckrc` at the top has it, and through those that
# are whole programs without what is let through there for files that others read. A file that begins with `#!/` has the
# run bit, and no other has it. All topics of the built program share one shell, so each of their functions has a name of
# its own. The last line is 'N passed, M failed, K skipped'.
set -eu
cd "$(dirname "$0")/../.."
if ! command -v shellcheck > /dev/null; then
    echo 'skipped: the Debian package shellcheck is not installed'
    echo '0 passed, 0 failed, 1 skipped'
    exit 0
fi
room=$(mktemp -d)
trap 'rm -rf "$room"' EXIT

passed=0
failed=0
# A script is a file that begins with the line of one, or as shellcheck is told of one, or that is named as one.
find . \( -name .git -o -name out -o -name rlib -o -name '.build.*' \) -prune -o -type f -print | sort > "$room/files"
while read -r file; do
    line=
    read -r line < "$file" 2> /dev/null || true
    case $line in
        '#!'*sh | '#!'*sh\ -*) echo "$file" >> "$room/whole" ;;
        '# shellcheck shell='*) echo "$file" >> "$room/parts" ;;
        *) case $file in *.sh) echo "$file" >> "$room/parts" ;; esac ;;
    esac
    case $line in '#!/'*) may_run=yes ;; *) may_run=no ;; esac
    if [ -x "$file" ]; then has=yes; else has=no; fi
    if [ "$has" != "$may_run" ]; then
        failed=$((failed + 1))
        echo "FAILED: $file: begins with #!/: $may_run; has the run bit: $has"
    fi
done < "$room/files"

# look FILE OPTION..: each of the scripts that stand in FILE; one that shellcheck did not look at to its end has failed
look() {
    scripts=$1
    shift
    while read -r script; do
        if shellcheck -f gcc "$@" "$script"; then
            passed=$((passed + 1))
        else
            failed=$((failed + 1))
            echo "FAILED: shellcheck $script"
        fi
    done < "$scripts"
}
look "$room/parts"
look "$room/whole" --norc -x -P SCRIPTDIR -e SC2016

doubled=$(grep -hoE '^ *[a-z_]+\(\)' tests/lib/*.sh tests/outside/program.sh tests/outside/trees.sh tests/outside/topics/*.sh |
    tr -d ' ' | sort | uniq -d | tr '\n' ' ')
if [ -z "$doubled" ]; then
    passed=$((passed + 1))
else
    failed=$((failed + 1))
    echo "FAILED: topics have several functions of one name: $doubled"
fi
echo "$passed passed, $failed failed, 0 skipped"
[ "$failed" -eq 0 ]
