# shellcheck shell=sh
# Runs in a machine: prints for each producer, p1 and p2 if none is named, which of its numbers the
# log lacks, or `whole`.
[ $# -gt 0 ] || set -- p1 p2
for name; do
    read -r last < "/run/n.$name"
    grep "^$name " /run/logged/current | sort -k 2n -u | awk -v "last=$last" '
        BEGIN { due = 1 }
        $2 != due { gaps = gaps " " due "-" $2 - 1 }
        { due = $2 + 1 }
        END { print $1, gaps ? "without" gaps : due <= last ? "ends at " due - 1 : "whole" }'
done
