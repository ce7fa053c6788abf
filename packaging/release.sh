#!/bin/sh
# Makes the archive of a release: packaging/release.sh PROGRAM FOLDER. It holds the program, the man
# pages, the completion, contrib, the documents, what `make install` there needs, a file PROVED that
# says what was proved and which C library the program needs, and the sum of each file. The same
# program of the same commit gives the same archive.
#
# If PROGRAM is not the one that was proved (tests/gate/proved.sh), there is no PROVED, and the name says so.
set -eu
program=$(realpath "$1")
folder=$(realpath "$2")
top=$(realpath "$(dirname "$0")/..")
cd "$top"
umask 022
name=undorc-$(packaging/version.sh)-$(uname -m)
if ! tests/gate/proved.sh "$program"; then
    name=$name-unproved
    echo "release: $program is not the program that was proved; the archive is $name" >&2
fi
room=$(mktemp -d)
trap 'rm -rf "$room"' EXIT
made=$room/$name
mkdir "$made" "$made/packaging"
install -m 755 "$program" "$made/undorc"
cp -R man contrib docs README.md NEWS LICENSE packaging/INSTALL "$made"
cp -R packaging/install.sh packaging/uninstall.sh packaging/check.sh packaging/copyright packaging/init \
    packaging/systemd "$made/packaging"
cp packaging/Makefile "$made/Makefile"
packaging/proved.sh "$program" > "$made/PROVED" || rm "$made/PROVED"
moment=$(git log -1 --format=%ct 2> /dev/null || echo 0)
chmod -R u=rwX,go=rX "$made"
(cd "$made" && find . -type f | sort | xargs -d '\n' sha256sum > "$room/sums")
mv "$room/sums" "$made/SHA256SUMS"
chmod 644 "$made/SHA256SUMS"
tar -C "$room" --sort=name --owner=0 --group=0 --numeric-owner --mtime="@$moment" -cf - "$name" |
    gzip -n > "$folder/$name.tar.gz"
packaging/sums.sh "$folder"
echo "$folder/$name.tar.gz"
