#!/bin/sh
# The words and codes of refusals, as codes.txt lists them, beside the enums of the sources: a variant's code is its
# number, or where the enum holds data, and so can have no numbers, its place. A struct stands for code 1. The last line
# is 'N passed, M failed, K skipped', and the status is 0 where none failed.
set -eu
cd "$(dirname "$0")/../.."
# shellcheck source=../lib/tally.sh
. tests/lib/tally.sh
passed=0 failed=0 skipped=0

# declared CRATE NAME: the words of an enum of a crate, each with its code
declared() {
    find "crates/$1/src" -name '*.rt' -exec awk -v name="$2" '
        $0 ~ "^pub struct " name ";$" { print " 1" }
        $0 ~ "^pub enum " name "(<| )" { within = 1; next }
        within && /^}/ { exit }
        within && match($0, /^    [A-Z][A-Za-z]*/) {
            word = substr($0, 5, RLENGTH - 4)
            place++
            code = match($0, / = [0-9]+,$/) ? substr($0, RSTART + 3) + 0 : place
            words = words (place > 1 ? "," : "") " " word " " code
        }
        END { if (words != "") print words }' {} +
}

while IFS=: read -r enum words; do
    found=$(declared "${enum% *}" "${enum#* }")
    if [ "$found" = "$words" ]; then
        passed=$((passed + 1))
    else
        failed=$((failed + 1))
        printf 'FAILED: the codes of %s are\n%s, and are to be\n%s\n' "$enum" "$found" "$words"
    fi
done < tests/gate/codes.txt
tally
