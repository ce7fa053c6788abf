#!/bin/sh
# Makes a Debian package by dpkg-deb: packaging/deb.sh PROGRAM FOLDER. It holds what install.sh installs under
# /usr, with the program stripped, manuals and changelog compressed, and /etc/undorc/settings as a file that an
# update of the package keeps. The same program of the same commit gives the same package.
#
# If PROGRAM is not the one that was proved (tests/gate/proved.sh), `+unproved` ends its version.
set -eu
program=$(realpath "$1")
folder=$(realpath "$2")
top=$(realpath "$(dirname "$0")/..")
cd "$top"
umask 022
version=$(packaging/version.sh)
if ! tests/gate/proved.sh "$program"; then
    version=$version+unproved
    echo "deb: $program is not the program that was proved; the package is $version" >&2
fi
architecture=$(dpkg --print-architecture)
SOURCE_DATE_EPOCH=$(git log -1 --format=%ct 2> /dev/null || stat -c %Y NEWS)
export SOURCE_DATE_EPOCH
room=$(mktemp -d)
trap 'rm -rf "$room"' EXIT
root=$room/root
doc=$root/usr/share/doc/undorc
DESTDIR=$root PREFIX=/usr packaging/install.sh "$program"

# A package keeps its own list of files, has the licence in `copyright`, and completion of zsh in a place of its own.
rm "$root/usr/share/undorc/INSTALLED" "$doc/LICENSE" "$doc/INSTALL"
mv "$root/usr/share/zsh/site-functions" "$root/usr/share/zsh/vendor-completions"
mkdir -p "$root/lib"
mv "$root/usr/lib/systemd" "$root/lib/systemd"
rmdir "$root/usr/lib"
install -D -m 644 packaging/settings "$root/etc/undorc/settings"
strip --strip-all --remove-section=.comment --remove-section=.note "$root/usr/bin/undorc"
packaging/proved.sh "$program" "$root/usr/bin/undorc" > "$doc/PROVED" || rm "$doc/PROVED"
find "$root/usr/share/man" -type f -exec gzip -9n {} +
maintainer='undorc maintainers <maintainers@users.noreply.celmudis.example>'
# The newest section of NEWS, as Debian's tools read it: each item begins with `*`, its further lines are indented, and
# none has more than 80 columns.
{
    echo "undorc ($version) unstable; urgency=medium"
    echo
    awk '
        function flush(  i, line) {
            line = "  *"
            for (i = 1; i <= count; i++) {
                if (length(line) + length(words[i]) >= 78) { print line; line = "   " }
                line = line " " words[i]
            }
            if (count) print line
            count = 0
        }
        /^undorc / { if (section++) exit; next }
        /^  [*] / { flush(); sub(/[*]/, " ") }
        /^  / { for (i = 1; i <= NF; i++) if ($i != "") words[++count] = $i }
        END { flush() }' NEWS
    echo
    echo " -- $maintainer  $(date -u -R -d "@$SOURCE_DATE_EPOCH")"
} | gzip -9n > "$doc/changelog.gz"
gzip -9n "$doc/NEWS"

mkdir "$root/DEBIAN"
library=$(grep -a -o 'GLIBC_2\.[0-9]*' "$program" | sort -u -t . -k 2n | tail -n 1)
cat > "$root/DEBIAN/control" <<END
Package: undorc
Version: $version
Architecture: $architecture
Maintainer: $maintainer
Installed-Size: $(du -k -s --apparent-size "$root" | cut -f 1)
Depends: libc6 (>= ${library#GLIBC_})
Recommends: s6 | runit
Suggests: execline
Section: admin
Priority: optional
Description: service manager whose changes can be undone exactly
 undorc starts and stops services in dependency order, up to 64 at once, and
 keeps a journal of what each change altered. Each change can be undone and
 redone exactly. It reads the source directories of s6-rc.
 .
 Its promises are proved: it is written in Rattle, which is Rust with
 contracts. Supervision is done by s6 or runit.
END
echo /etc/undorc/settings > "$root/DEBIAN/conffiles"
(cd "$root" && find usr lib -type f | sort | xargs -d '\n' md5sum) > "$room/md5sums"
mv "$room/md5sums" "$root/DEBIAN/md5sums"
chmod -R u=rwX,go=rX "$root"
find "$root" -exec touch -h -d "@$SOURCE_DATE_EPOCH" {} +
package=$folder/undorc_${version}_$architecture.deb
dpkg-deb --root-owner-group -Zxz --build "$root" "$package" > /dev/null
packaging/sums.sh "$folder"
echo "$package"
