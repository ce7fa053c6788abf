#!/bin/sh
# Writes FOLDER/SHA256SUMS, of the archives and packages there: packaging/sums.sh FOLDER. A signature of it can
# stand beside it: `gpg --armor --detach-sign SHA256SUMS`. An old signature is removed.
set -eu
cd "$1"
rm -f SHA256SUMS.asc
find . -maxdepth 1 -name 'undorc[-_]*' \( -name '*.tar.gz' -o -name '*.deb' \) -printf '%f\n' | sort |
    xargs -r -d '\n' sha256sum > SHA256SUMS
