# For the launcher, which sources it: installs the program that is built, and makes packages of it. What is installed needs no place: it has no
# name of a folder in it, so all of it may be moved together.
# shellcheck shell=bash disable=SC2154

# copied FILE PLACE: the file is there, for everybody to read, and to run where it may be run here.
copied() {
    if [ -x "$1" ]; then install -D -m 755 -- "$1" "$2"; else install -D -m 644 -- "$1" "$2"; fi
}

# read_stamp: the kit, the sum of the sources and that of the program, as its build noted them.
read_stamp() {
    { read -r with && read -r from _ && read -r sum _; } <"$out/launcher.stamp"
}

# of_git WORD..: what git says of the checkout. It doesn't write there.
of_git() {
    GIT_OPTIONAL_LOCKS=0 git -C "$top" "$@"
}

# is_checkout: the sources are a checkout of git's, of a commit, and no folder within one.
is_checkout() {
    [ -z "$(of_git rev-parse --show-prefix 2>&1)" ] && of_git rev-parse HEAD >/dev/null 2>&1
}

# commit_of: which commit the checkout is of, where it is one of git's.
commit_of() {
    local commit
    is_checkout || return 0
    commit=$(of_git rev-parse HEAD)
    [ -z "$(of_git status --porcelain 2>/dev/null)" ] || commit+=', with changes that are in no commit'
    printf '    commit  %s\n' "$commit"
}

# about: the README of what is installed.
about() {
    cat <<text
aspaview $version, of $day

    bin/aspaview               runs the program; aspaview --help names its words
    lib/aspaview               the program itself, what aspaview --help shows, and the Python package, in python
    share/man/man1/aspaview.1  the manual page
    share/doc/aspaview         this text, the pages, of which README.md is the first, and the examples

All of it may be moved together to another folder. The pages' commands and examples run in share/doc/aspaview, or in a folder of yours with links
to what is in it, where PREFIX is the folder that has bin and lib:

    ln -s PREFIX/share/doc/aspaview/* .
    ./aspaview run < examples/first.txt

The examples in Python find the package and the program by themselves. Programs of yours find them by PYTHONPATH=PREFIX/lib/aspaview/python;
docs/python.md shows what the package does.

The program was proved and built by

    kit     $with

of the sources

$(commit_of)
    sha256  $from

and is itself

    sha256  $sum

The second sum is that of lib/aspaview/aspaview. The first one is over the sources of the crates that the program needs: a checkout whose
program the launcher ./aspaview has built has it in the second line of crates/aspaview/out/launcher.stamp. What is proved, and what isn't,
says docs/proved.md.
text
}

# files_of NAME..: the files that have these names, or are in folders of these names.
files_of() {
    (cd "$top" && find "$@" -type f ! -path docs/aspaview.1 ! -path '*/__pycache__/*' 2>/dev/null | LC_ALL=C sort)
}

# pages: the files of docs and examples; in a checkout of git's without what somebody has put beside them.
pages() {
    if is_checkout; then
        files_of docs examples | LC_ALL=C comm -12 - <(of_git ls-files -z docs examples | tr '\0' '\n' | LC_ALL=C sort)
    else
        files_of docs examples
    fi
}

# put ROOT: all that is installed, under this folder.
put() {
    local file word with from sum doc=$1/share/doc/aspaview lib=$1/lib/aspaview
    read_stamp && copied "$top/$built" "$lib/aspaview" && copied "$top/packaging/aspaview.sh" "$1/bin/aspaview" && chmod 755 "$1/bin/aspaview" &&
        copied "$top/docs/aspaview.1" "$1/share/man/man1/aspaview.1" || return 1
    while IFS= read -r file; do
        copied "$top/$file" "$doc/$file" || return 1
    done < <(files_of README.md CHANGELOG.md LICENSE VERSION && pages)
    # (the package finds the version two folders above its own, and the pages' commands find both and the program in the folder of the pages)
    while IFS= read -r file; do
        copied "$top/$file" "$lib/$file" || return 1
    done < <(files_of VERSION python/aspaview python/pyproject.toml)
    ln -sfn ../../../lib/aspaview/python "$doc/python" && ln -sfn ../../../bin/aspaview "$doc/aspaview" || return 1
    # (so that no line is left of a version before)
    rm -rf "$lib/lines" && about >"$doc/README" && mkdir -p "$lib/lines" && echo "aspaview $version of $day, built with $with" >"$lib/version.txt" &&
        { usage | head -n 4 && script_lines; } >"$lib/help.txt" || return 1
    while read -r word _; do
        script_lines "$word" >"$lib/lines/$word" || return 1
    done < <(script_lines | grep '^  ')
}

# install_it [PREFIX]: puts it under PREFIX, and under DESTDIR before that where it is set.
install_it() {
    local root=${1:-/usr/local}
    [ -z "${DESTDIR-}" ] || root=${DESTDIR%/}/${root#/}
    umask 022
    { mkdir -p "$root" && [ -w "$root" ]; } 2>/dev/null || fail "$root can't be written to"
    put "$root" || fail "not all could be installed under $root"
    echo "installed under $root: bin/aspaview, lib/aspaview, share/man/man1/aspaview.1 and share/doc/aspaview"
}

# moment: the time that all files of a package have, that of the change log's newest entry unless SOURCE_DATE_EPOCH says another.
moment() {
    echo "${SOURCE_DATE_EPOCH:-$(date -u -d "$day" +%s)}"
}

# dated FOLDER: all that is in it has this time.
dated() {
    find "$1" -exec touch -h -d "@$(moment)" {} +
}

# control FOLDER: what the .deb says of the tree in the folder.
control() {
    local needed_libc
    needed_libc=$(grep -aoE 'GLIBC_2\.[0-9]+' "$top/$built" | sort -uV | tail -n 1)
    cat <<text
Package: aspaview
Version: $version
Architecture: $(dpkg --print-architecture)
Maintainer: the aspaview authors <noreply@localhost>
Installed-Size: $(find "$1" -type f -printf '%s\n' | awk '{ size += int(($1 + 1023) / 1024) } END { print size }')
Depends: libc6${needed_libc:+ (>= ${needed_libc#GLIBC_})}
Section: net
Priority: optional
Description: analyse recorded BGP paths with provider attestations (ASPA)
 It judges the paths of MRT and BMP dumps by what provider attestations say,
 and shows route leaks and who is suspected of them. Its answers are proved;
 the README in /usr/share/doc/aspaview says of which sources and by which kit.
text
}

# make_tar FILE, make_deb FILE: the package, by way of the folder $room. Names are in order, and owners and times fixed, so the same tree gives
# the same bytes. A .tar.gz is there as a whole or not at all.
make_tar() {
    local name=aspaview-$version
    put "$room/$name" && ln -s share/doc/aspaview/README "$room/$name/README" && dated "$room/$name" &&
        tar -C "$room" --sort=name --format=gnu --owner=0 --group=0 --numeric-owner -cf "$room/tar" "$name" &&
        gzip -9nc "$room/tar" >"$1.part" && mv -f -- "$1.part" "$1" && return
    rm -f -- "$1.part"
    return 1
}

make_deb() {
    local tree=$room/deb
    put "$tree/usr" && ln -s LICENSE "$tree/usr/share/doc/aspaview/copyright" && mkdir "$tree/DEBIAN" &&
        control "$tree/usr" >"$tree/DEBIAN/control" &&
        (cd "$tree" && find usr -type f -print0 | LC_ALL=C sort -z | xargs -0 md5sum >DEBIAN/md5sums) && dated "$tree" &&
        SOURCE_DATE_EPOCH=$(moment) dpkg-deb --root-owner-group -Zgzip -z9 --build "$tree" "$1" >/dev/null
}

# package_it [FOLDER]: makes both packages there, and writes their names.
package_it() {
    local folder=${1:-.} file
    umask 022
    { mkdir -p "$folder" && [ -w "$folder" ]; } 2>/dev/null || fail "$folder can't be written to"
    room=$(mktemp -d --tmpdir aspaview-XXXXXX) || fail "${TMPDIR:-/tmp} can't be written to, where the packages are made"
    trap clean EXIT
    chmod 755 "$room"
    file=$folder/aspaview-$version-linux-$(uname -m).tar.gz
    make_tar "$file" || fail "$file could not be made"
    echo "$file"
    if command -v dpkg-deb >/dev/null; then
        file=$folder/aspaview_${version}_$(dpkg --print-architecture).deb
        make_deb "$file" || fail "$file could not be made"
        echo "$file"
    else
        say "no dpkg-deb is there, so no .deb was made"
    fi
}
