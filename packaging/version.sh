#!/bin/sh
# Prints the version of this tree: packaging/version.sh. It is that of NEWS if NEWS dates it. Else, as between two releases,
# the day and the commit follow: 0.2.0~dev20261129.ad9fcec7, which Debian's tools take for older than 0.2.0. `.changed`
# is behind it if a file differs from the commit, and the day and the commit are left out without git.
set -eu
cd "$(dirname "$0")/.."
read -r version dated <<END
$(sed -n 's/^undorc \([0-9.]*\)\(, [0-9]\{4\}-[0-9][0-9]-[0-9][0-9]\)\{0,1\}.*/\1 \2/p' NEWS | head -n 1)
END
if [ -z "$dated" ]; then
    version=$version~dev$(git log -1 --format=%cd.%h --date=format:%Y%m%d --abbrev=8 2> /dev/null || true)
fi
[ -z "$(git status --porcelain 2> /dev/null)" ] || version=$version.changed
echo "$version"
