#!/bin/sh
# Removes what install.sh installed under PREFIX and DESTDIR, by its list, and the directories of
# undorc's own that are empty then. Files that somebody else put there stay.
set -eu
to=${DESTDIR:-}${PREFIX:-/usr/local}
list=$to/share/undorc/INSTALLED
if [ ! -f "$list" ]; then
    echo "uninstall: undorc is not installed under $to: $list is missing" >&2
    exit 1
fi
while IFS= read -r file; do
    case /$file/ in
        */../*)
            echo "uninstall: $list names $file" >&2
            exit 1
            ;;
    esac
    rm -f "$to/$file"
done < "$list"
rm -f "$list"
for own in share/undorc share/doc/undorc; do
    [ ! -d "$to/$own" ] || find "$to/$own" -depth -type d -exec rmdir --ignore-fail-on-non-empty {} +
done
