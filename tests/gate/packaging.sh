#!/bin/sh
# What is installed, from the repository and from an archive of a release:
# tests/gate/packaging.sh PROGRAM. The last line is 'N passed, M failed, K skipped', and the status is 0 where none
# failed.
set -eu
here=$(realpath "$(dirname "$0")")
program=$(realpath "$1")
. "$here/../lib/library.sh"
# Where a make runs this script, the makes below would tell their folders.
unset MAKEFLAGS MAKELEVEL MFLAGS MAKEOVERRIDES

# told WHAT: the files `out` and `out.wanted` agree, and nothing went wrong.
told() {
    : > err
    : > err.wanted
    echo 0 > status
    judge "$1" 0
}

# tree FOLDER: the files below, each with its rights and its sum.
tree() {
    (cd "$1" && find . -type f | sort | while IFS= read -r file; do
        echo "$file $(stat -c %a "$file") $(sha256sum < "$file")"
    done)
}

# installs COMMAND..: what it says where it fails.
installs() {
    "$@" > said 2>&1 && return
    echo "status $?: $*"
    cat said
}

# Every file of contrib, man, docs and for other inits is installed, under the prefix, and the program runs there. All
# users can read it, whatever the umask.
(umask 077 && DESTDIR=$room/copied PREFIX=/usr installs sh "$top/packaging/install.sh" "$program") > out
to=$room/copied/usr
# same FILE PLACE: whether a file is installed at a place, with the prefix where it names one
same() {
    sed -e 's|UNDORC_PROGRAM:=undorc}|UNDORC_PROGRAM:=/usr/bin/undorc}|' -e 's|@PREFIX@|/usr|g' "$1" |
        cmp - "$to/$2" 2>&1 || true
    [ ! -x "$1" ] || [ -x "$to/$2" ] || echo "$2: no right to run"
}
# same_tree FOLDER PLACE: the same for all files below a folder of the repository
same_tree() {
    find "$top/$1" -path "$top/contrib/completion" -prune -o -type f -printf '%P\n' | while IFS= read -r file; do
        same "$top/$1/$file" "$2/$file"
    done
}
{
    cmp "$program" "$to/bin/undorc" 2>&1 || true
    for file in "$top"/man/*; do same "$file" "share/man/man${file##*.}/${file##*/}"; done
    same_tree contrib share/undorc
    same_tree packaging/init share/undorc/init
    same_tree packaging/systemd lib/systemd/system
    same "$top/packaging/check.sh" share/undorc/check
    same_tree docs share/doc/undorc/docs
    for file in README.md NEWS LICENSE packaging/copyright packaging/INSTALL; do
        same "$top/$file" "share/doc/undorc/${file##*/}"
    done
    same "$top/contrib/completion/undorc.bash" share/bash-completion/completions/undorc
    same "$top/contrib/completion/_undorc" share/zsh/site-functions/_undorc
    same "$top/contrib/completion/undorc.fish" share/fish/vendor_completions.d/undorc.fish
} >> out
"$to/bin/undorc" version >> out
"$program" version > out.wanted
told 'what is installed'
find copied -mindepth 1 \( -type d ! -perm 755 -o -type f ! -perm 755 ! -perm 644 \) -printf '%m %p\n' > out
: > out.wanted
told 'all users can read what is installed, whatever the umask'
find copied -type f ! -path copied/usr/bin/undorc ! -path 'copied/usr/lib/systemd/system/*' \
    ! -path 'copied/usr/share/*' > out
: > out.wanted
told 'nothing is installed beside the prefix'
grep -r -l '@PREFIX@' copied > out || true
told 'no installed file has an open place for the prefix'
if PREFIX=relative sh "$top/packaging/install.sh" "$program" > said 2>&1; then echo 'it is installed' > out; else cp said out; fi
echo 'install: PREFIX is relative, and not a full path' > out.wanted
told 'a prefix that is no full path'

# The self-test that is installed passes, and fails for programs that do something wrong.
"$to/share/undorc/check" > said 2>&1 || true
sed 's/^[1-9][0-9]* passed/N passed/' said | grep -v '^ok: ' > out || true
echo 'N passed, 0 failed' > out.wanted
told 'the self-test of what is installed'
# Each of these words makes a program wrong: what it answers to a command with that word is left out or altered.
for wrong in version compile undo journal status 'change net'; do
    printf '#!/bin/sh\ncase "$*" in *"%s"*) exec echo wrong ;; esac\nexec "%s" "$@"\n' "$wrong" "$program" > wrong
    chmod +x wrong
    if "$to/share/undorc/check" "$room/wrong" > said 2>&1; then echo "a wrong $wrong passes"; fi
done > out
: > out.wanted
told 'the self-test fails for programs that are wrong'

# The licence of each crate that is linked is named. What the kit calls its own is the library of its language.
if command -v nm > /dev/null && nm "$program" 2> /dev/null | grep -q ' undorc::'; then
    nm "$program" | sed -n 's/^[0-9a-f]* [a-zA-Z] \([a-z_0-9]*\)::.*/\1/p' | sort -u > linked
    sed 's/[: ].*//' "$top/crates.txt" > crates
    grep -v -x -f crates linked | grep -v -x -E 'std|std_[a-z]*|io|os|libc|threads' | while read -r crate; do
        grep -q -E "(linked/|[ ,])$crate([ ,.]|\$)" "$top/packaging/copyright" || echo "$crate is not in packaging/copyright"
    done > out
    : > out.wanted
    told 'the licence of each crate that is linked'
else
    skip 'licences of linked crates, since nm or the names of functions are missing (the package binutils)'
fi

# No file of contrib is a copy of another one.
find "$top/contrib" -type f -exec sha256sum {} + | sort | awk '$1 == last { print $2 } { last = $1 }' > out
: > out.wanted
told 'contrib has no copies'

# The scripts call the program by its full path, whatever PATH has.
(
    UNDORC_SUPERVISOR=s6
    # shellcheck source=../../contrib/machine/settings
    . "$to/share/undorc/machine/settings"
    echo "$UNDORC_PROGRAM"
) > out
echo /usr/bin/undorc > out.wanted
told 'the settings name the program by its full path'

# What is removed: all of that, and nothing else.
cp -R copied removed
echo mine > removed/usr/share/undorc/machine/mine
mkdir -p removed/etc/undorc
echo UNDORC_SUPERVISOR=runit > removed/etc/undorc/settings
removes() {
    DESTDIR=$room/removed PREFIX=/usr make -s -C "$top" uninstall
}
installs removes > out
(cd removed && find . -type f | sort) >> out
printf '%s\n' ./etc/undorc/settings ./usr/share/undorc/machine/mine > out.wanted
told 'make uninstall removes what was installed, and nothing else'
(cd removed && find usr/share/doc usr/share/undorc -type d | sort) > out
printf '%s\n' usr/share/doc usr/share/undorc usr/share/undorc/machine > out.wanted
told 'make uninstall removes its own directories'
if removes > said 2>&1; then echo 'it is done twice' > out; else grep -c 'is not installed under' said > out; fi
echo 1 > out.wanted
told 'a second make uninstall says that nothing is installed'

# makes TARGET PLACE: make, with programs that stand in a folder of their own, and only the system's commands and those
# of `bin`.
mkdir bin
makes() {
    PATH=$room/bin:/usr/bin:/bin timeout 120 make -s -C "$top" "PROGRAM=$room/$2/undorc" \
        "UNPROVED=$room/$2/unproved" "$1"
}
# ends_with TEXT TARGET: what make says of a machine on which something is missing, at once
ends_with() {
    status=0
    makes "$2" no > out 2> said || status=$?
    echo "$2: $status" >> out
    sed '/^make/d' said >> out
    printf '%s: 2\n%s\n' "$2" "$1" > out.wanted
    told "make $2: $1"
}
# can COMMAND STATUS TEXT: a command of that name, which writes TEXT and ends with STATUS
can() {
    printf '#!/bin/sh\necho "%s"\nexit %s\n' "$3" "$2" > "bin/$1"
    chmod +x "bin/$1"
}
# Where the kit can't be used, each target that needs it says so at once.
if PATH=/usr/bin:/bin command -v rt > /dev/null; then
    skip 'make without the kit, since the kit is in /usr/bin'
else
    for target in build demo program; do
        ends_with 'rt is not on PATH. It is the command of the Rattle kit, which README.md names.' "$target"
    done
fi
can rt 0 ''
can python3 1 ''
ends_with 'rt needs python3 with its whole library: on Debian, the package python3.' program
can python3 0 ''
can uname 0 Plan9
ends_with 'The Rattle kit needs x86-64 Linux; this is Plan9 Plan9.' program
rm bin/*

# What make demo says of the program is decided by its sum. Without a proved program it runs the one that stands there
# unproved.
mkdir proved altered
for place in proved altered; do
    cp "$program" "$place/undorc"
    "$top/tests/gate/proved.sh" -w "$place/undorc"
    sleep 0.01
    cp "$program" "$place/unproved"
done
echo >> altered/undorc
for place in proved altered; do
    { makes demo "$place" 2>&1 || echo "status $?"; } | tail -n 1 | sed "s|$room/||"
done > out
cat > out.wanted <<'END'
This was the proved program, proved/undorc.
This was altered/unproved, of which nothing is proved. `make build` proves the program, and builds it.
END
told 'make demo calls that program proved whose sum was written after the proof'

# The archive, in an empty folder: of a program that counts as proved, beside which the gate has left its last line.
mkdir once again unpacked
cp "$program" proved/undorc
"$top/tests/gate/proved.sh" -w proved/undorc
sum=$(sha256sum < proved/undorc | cut -d ' ' -f 1)
sed -i 's/^commit .*/commit of the proof/' proved/proved
printf 'program %s\ngate 3 passed, 0 failed, 0 skipped\n' "$sum" > proved/gate
sh "$top/packaging/release.sh" proved/undorc once > made 2> said
sh "$top/packaging/release.sh" proved/undorc again > /dev/null
archive=$(cat made)
{ cmp "$archive" "again/${archive##*/}" 2>&1 || true; cat said; } > out
: > out.wanted
told 'an archive is made alike again'
(cd once && sha256sum --check --quiet SHA256SUMS && cut -c 67- SHA256SUMS) > out 2>&1
echo "${archive##*/}" > out.wanted
told 'the sum of an archive is beside it'
tar -C unpacked -xzf "$archive"
ls unpacked > out
basename "$archive" .tar.gz > out.wanted
told 'the archive has one folder'
cd "unpacked/$(basename "$archive" .tar.gz)"
unpacked=$PWD
{ sha256sum --check --quiet SHA256SUMS 2>&1 || true; } > "$room/out"
find . -type f ! -name SHA256SUMS | sort > "$room/files"
sed 's/^[0-9a-f]*  //' SHA256SUMS | sort | diff "$room/files" - >> "$room/out" 2>&1 || true
: > "$room/out.wanted"
cd "$room"
told 'each file has its sum'
{
    sed -n 's/^program: sha256 //p' "$unpacked/PROVED"
    sed -n 's/^last line of the gate: //p' "$unpacked/PROVED"
    sed -n 's/^commit: //p' "$unpacked/PROVED"
    grep -c -E '^(version|kit): .' "$unpacked/PROVED"
} > out
printf '%s\n' "$sum" '3 passed, 0 failed, 0 skipped' 'of the proof' 2 > out.wanted
told 'the archive says what was proved'
newest=$(grep -a -o 'GLIBC_2\.[0-9]*' "$program" | sort -u -t . -k 2n | tail -n 1)
sed -n 's/^C library: \(glibc 2\.[0-9]*\), .*/\1/p' "$unpacked/PROVED" > out
echo "glibc ${newest#GLIBC_}" > out.wanted
told 'the archive names the C library that the program needs'

# Nothing is called proved but that program, whatever lies in its place.
mkdir unproved
echo >> proved/undorc
sh "$top/packaging/release.sh" proved/undorc unproved > made 2> said
{
    basename "$(cat made)" | sed 's/^undorc-.*-x86_64/undorc-VERSION-x86_64/'
    tar -tzf "$(cat made)" | grep -c PROVED || true
    sed 's/the archive is .*/the archive is ..'/ said
} > out
printf '%s\n' 'undorc-VERSION-x86_64-unproved.tar.gz' 0 \
    "release: $room/proved/undorc is not the program that was proved; the archive is .." > out.wanted
told 'an archive of another program has no file PROVED'

# `make install` there copies the same, with nothing but what is in the archive, and no proof. `make` alone installs
# nothing.
: > out
(
    cd "$unpacked"
    PATH=/usr/bin:/bin make DESTDIR="$room/plain" PREFIX=/usr | sed 's/ .*//'
    PATH=/usr/bin:/bin make check DESTDIR="$room/plain" PREFIX=/usr | tail -n 1
    find "$room/plain" 2> /dev/null || true
) > out
passes=$("$to/share/undorc/check" | tail -n 1)
printf '%s\n' make make make "$passes" > out.wanted
told 'make alone, and make check, in an archive'
(
    cd "$unpacked"
    PATH=/usr/bin:/bin installs make install DESTDIR="$room/from" PREFIX=/usr
) > out
tree copied > out.wanted
tree from >> out
told 'what an archive installs'
# edits ROOT: sets something for the site below ROOT
edits() {
    mkdir -p "$1/etc/undorc"
    echo UNDORC_SUPERVISOR=runit > "$1/etc/undorc/settings"
    chmod 640 "$1/etc/undorc/settings"
}
# edited ROOT: what is set there
edited() {
    cat "$1/etc/undorc/settings"
    stat -c %a "$1/etc/undorc/settings"
}
edits from
(
    cd "$unpacked"
    PATH=/usr/bin:/bin installs make install DESTDIR="$room/from" PREFIX=/usr
) > out
edited from >> out
printf '%s\n' UNDORC_SUPERVISOR=runit 640 > out.wanted
told 'make install keeps the settings of a site'
echo more >> "$unpacked/man/undorc.1"
if (cd "$unpacked" && make install DESTDIR="$room/other" PREFIX=/usr) > said 2>&1; then
    echo 'it is installed' > out
else
    find other > out 2> /dev/null || true
    grep -v '^make\|^sha256sum' said >> out
fi
cat > out.wanted <<'END'
./man/undorc.1: FAILED
A file is not as it was packed, so nothing is installed.
Settings of this machine belong in /etc/undorc/settings.
END
told 'an archive with an altered file is not installed'

# The version: that of NEWS, and of a day and a commit where NEWS dates none.
mkdir version version/packaging
cp "$top/packaging/version.sh" version/packaging
for line in 'undorc 1.2.3, 2026-12-01' 'undorc 1.2.3, in development'; do
    printf '%s\n\n  * An item.\n\nundorc 1.2.2, 2026-01-01\n' "$line" > version/NEWS
    GIT_DIR=$room/none sh version/packaging/version.sh
done > out
printf '%s\n' 1.2.3 '1.2.3~dev' > out.wanted
told 'the version says if it is no release'

# The Debian package: what is installed, and what Debian's tools say.
if command -v dpkg-deb > /dev/null && command -v strip > /dev/null; then
    cp "$program" proved/undorc
    sh "$top/packaging/deb.sh" proved/undorc once > made 2> said
    sh "$top/packaging/deb.sh" proved/undorc again > /dev/null
    package=$(cat made)
    { cmp "$package" "again/${package##*/}" 2>&1 || true; cat said; } > out
    : > out.wanted
    told 'a package is made alike again'
    (cd once && sha256sum --check --quiet SHA256SUMS && cut -c 67- SHA256SUMS) > out 2>&1
    printf '%s\n' "${archive##*/}" "${package##*/}" > out.wanted
    told 'the sums of an archive and a package are beside them'
    dpkg-deb -x "$package" deb
    dpkg-deb -e "$package" control
    {
        "$room/deb/usr/share/undorc/check" 2>&1 | tail -n 1
        nm deb/usr/bin/undorc 2>&1 | grep -c undorc:: || true
        sed -n -e 's/^program: sha256 //p' -e 's/^stripped, as it stands here: sha256 //p' deb/usr/share/doc/undorc/PROVED
        cat control/conffiles
        sed -n 's/^\(Package\|Depends\|Recommends\): //p' control/control
    } > out
    {
        echo "$passes"
        echo 0
        sha256sum proved/undorc deb/usr/bin/undorc | cut -d ' ' -f 1
        printf '%s\n' /etc/undorc/settings undorc "libc6 (>= ${newest#GLIBC_})" 's6 | runit'
    } > out.wanted
    told 'the program of a package is stripped, and named by both sums'
    if [ "$(id -u)" -eq 0 ]; then
        mkdir -p system/var/lib/dpkg/info system/var/lib/dpkg/updates
        : > system/var/lib/dpkg/status
        # unpacks PACKAGE: as dpkg does on a machine, but for what it needs
        unpacks() {
            installs dpkg --root="$room/system" --force-depends --no-triggers -i "$1" < /dev/null
        }
        unpacks "$package" > out
        edits system
        unpacks "$package" >> out
        edited system >> out
        printf '%s\n' UNDORC_SUPERVISOR=runit 640 > out.wanted
        told 'a package keeps the settings of a site'
    else
        skip 'what a package keeps, since only root can install one'
    fi
    # But for what a package has elsewhere, it has what is installed.
    tree deb/usr | sed -e 's/\.gz / /' -e 's|vendor-completions|site-functions|' | cut -d ' ' -f 1,2 | sort > out
    { tree copied/usr | cut -d ' ' -f 1,2 | grep -v -E '(INSTALLED|LICENSE|INSTALL|\.service) '; echo './share/doc/undorc/PROVED 644'
        echo './share/doc/undorc/changelog 644'; } | sort > out.wanted
    told 'a package has what is installed'
    echo >> proved/undorc
    sh "$top/packaging/deb.sh" proved/undorc unproved > made 2> /dev/null
    { sed 's/.*\(+unproved_.*\)/\1/' made; dpkg-deb -c "$(cat made)" | grep -c PROVED || true; } > out
    printf '+unproved_%s.deb\n0\n' "$(dpkg --print-architecture)" > out.wanted
    told 'a package of another program is named so'
    if command -v lintian > /dev/null; then
        lintian --allow-root --fail-on none --tag-display-limit 0 "$package" > said 2>&1 || true
        grep '^E: \|^W: ' said | grep -v -E 'unusual-interpreter /sbin/openrc-run|zero-byte-file-in-doc-directory' > out || true
        : > out.wanted
        told 'lintian'
    else
        skip 'lintian is missing (the package lintian)'
    fi
else
    skip 'packages, since dpkg-deb or strip is missing (the packages dpkg and binutils)'
fi

# The services of a machine under another init: what the units and scripts start, in a folder of its own.
machine=$room/machine
# with COMMAND..: a command of this machine
with() {
    env UNDORC_ROOT="$machine" UNDORC_SUPERVISOR="$supervisor" "$@"
}
# The scanner alone is told its supervisor by the settings of the machine.
scans() {
    echo "UNDORC_SUPERVISOR=$supervisor" > "$machine/etc/undorc/settings"
    exec env UNDORC_ROOT="$machine" "$undorc/init/scan" "$@"
}
PREFIX=$machine/usr DESTDIR='' installs sh "$top/packaging/install.sh" "$program" > out
mkdir -p "$machine/etc/undorc/services/web" "$machine/etc/undorc/services/default"
echo longrun > "$machine/etc/undorc/services/web/type"
printf '#!/bin/sh\nenv | grep UNDORC_ | grep -c -v NO_SKIPS > "%s/settings"\nexec sleep 1000\n' "$machine" > "$machine/etc/undorc/services/web/run"
chmod +x "$machine/etc/undorc/services/web/run"
echo bundle > "$machine/etc/undorc/services/default/type"
echo web > "$machine/etc/undorc/services/default/contents"
"$machine/usr/bin/undorc" compile -o "$machine/etc/undorc/db" "$machine/etc/undorc/services"
undorc=$machine/usr/share/undorc
for supervisor in s6 runit; do
    if ! command -v "$([ $supervisor = s6 ] && echo s6-svscan || echo runsvdir)" > /dev/null; then
        skip "another init with $supervisor, which is missing (the package $supervisor)"
        continue
    fi
    rm -rf "$machine/run" "$machine/settings"
    (
        scans > "$machine/scan.log" 2>&1 &
        with "$undorc/machine/boot" 2> boot.log || { echo "boot: $?"; cat boot.log; }
        with "$undorc/machine/manage" status
        cat "$machine/settings"
        with "$undorc/machine/shutdown" 2> boot.log || { echo "shutdown: $?"; cat boot.log; }
        scanner=$!
        (scans stop)
        status=0
        wait "$scanner" || status=$?
        [ "$status" -eq 0 ] || [ "$status.$supervisor" = 111.runit ] || echo "scan: $status"
    ) > out 2>&1
    # What the scanner starts has no setting in its environment.
    printf '%s\n' 'raised web' ok 'web up' 0 'lowered web' ok > out.wanted
    told "boot and shutdown under another init, with $supervisor"
done
if command -v systemd-analyze > /dev/null; then
    systemd-analyze verify "$machine"/usr/lib/systemd/system/undorc*.service 2>&1 | grep undorc | grep -v "Command 'man " > out || true
    : > out.wanted
    told 'systemd-analyze verify'
else
    skip 'systemd-analyze is missing (the package systemd)'
fi
tally
