#!/bin/sh
# Installs the program, the man pages, the completion, contrib, the documents, a self-test, and what
# runs the services of a machine under another init: packaging/install.sh PROGRAM. PREFIX is where they
# are to stand (default /usr/local), and DESTDIR a directory that is put before it. It proves nothing, and
# needs no `make`. `make install` calls it, here and in an archive of a release.
#
# The list of what it installed is PREFIX/share/undorc/INSTALLED, which uninstall.sh reads.
set -eu
program=$1
top=$(realpath "$(dirname "$0")/..")
prefix=${PREFIX:-/usr/local}
to=${DESTDIR:-}$prefix
case $prefix in
    /*) ;;
    *)
        echo "install: PREFIX is $prefix, and not a full path" >&2
        exit 1
        ;;
esac
# All users read what is installed, whatever the umask of the one who installs it.
umask 022
list=$to/share/undorc/INSTALLED
mkdir -p "$to/share/undorc"
: > "$list"

# put MODE FILE PLACE: installs a file at a place under the prefix
put() {
    install -D -m "$1" "$2" "$to/$3"
    echo "$3" >> "$list"
}

# put_tree FROM PLACE: the same for a file, or all files below a directory, executable if they are
put_tree() {
    find "$1" -type f | sort | while IFS= read -r file; do
        mode=644
        [ ! -x "$file" ] || mode=755
        put "$mode" "$file" "$2${file#"$1"}"
    done
}

# names_prefix PLACE..: writes the prefix into installed files that name it
quoted=$(printf '%s' "$prefix" | sed 's/[&|\\]/\\&/g')
names_prefix() {
    for place in "$@"; do sed -i "s|@PREFIX@|$quoted|g" "$to/$place"; done
}

put 755 "$program" bin/undorc
for page in "$top"/man/*.[158]; do
    put 644 "$page" "share/man/man${page##*.}/${page##*/}"
done
# undorc-machine is the script that manages the services of a machine.
ln -sf ../share/undorc/machine/manage "$to/bin/undorc-machine"
echo bin/undorc-machine >> "$list"
completion=$top/contrib/completion
for name in undorc undorc-machine; do
    put 644 "$completion/undorc.bash" "share/bash-completion/completions/$name"
    put 644 "$completion/$name.fish" "share/fish/vendor_completions.d/$name.fish"
done
put 644 "$completion/_undorc" share/zsh/site-functions/_undorc
for entry in "$top"/contrib/*; do
    [ "$entry" = "$completion" ] || put_tree "$entry" "share/undorc/${entry##*/}"
done
put 755 "$top/packaging/check.sh" share/undorc/check
put_tree "$top/packaging/init" share/undorc/init
names_prefix share/undorc/init/scan share/undorc/init/openrc/undorc share/undorc/init/openrc/undorc-scan
for unit in undorc undorc-scan; do
    put 644 "$top/packaging/systemd/$unit.service" "lib/systemd/system/$unit.service"
    names_prefix "lib/systemd/system/$unit.service"
done
# Documents keep the places in which they name each other.
for file in README.md NEWS LICENSE; do
    put 644 "$top/$file" "share/doc/undorc/$file"
done
put 644 "$top/packaging/copyright" share/doc/undorc/copyright
notes=$top/packaging/INSTALL
[ -f "$notes" ] || notes=$top/INSTALL
put 644 "$notes" share/doc/undorc/INSTALL
put_tree "$top/docs" share/doc/undorc/docs
# The settings name the program by its full path, which cron's PATH may lack.
sed -i "s|UNDORC_PROGRAM:=undorc}|UNDORC_PROGRAM:=$quoted/bin/undorc}|" "$to/share/undorc/machine/settings"
