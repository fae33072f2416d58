#!/usr/bin/env bash
# Tests of the version, of the launcher's page of a script's lines, and of what is installed and packed, in a checkout of the test's own: a
# stand-in for the kit "builds" it by a copy of the built program. The first example is run by what was installed, by what the .tar.gz has
# and by what the .deb has. The last line is 'N passed, M failed', and the status is 0 where none failed.
set -u
cd "$(dirname "$0")/.." || exit
program=$PWD/crates/aspaview/out/aspaview
work=$(readlink -f "$(mktemp -d)")
trap 'rm -rf "$work"' EXIT
. tests/checks.bash

# `rt ci` has built the program; where it hasn't, the launcher does.
[ -x "$program" ] || ./aspaview run </dev/null

# ---- the version stands in VERSION, and everywhere else as there

version=$(cat VERSION)
check 'VERSION is three numbers' yes "$([[ $version =~ ^[0-9]+\.[0-9]+\.[0-9]+$ ]] && echo yes)"
check 'the newest release of CHANGELOG.md' "$version" "$(sed -nE 's/^## ([0-9.]+), [0-9]+ [A-Z][a-z]+ [0-9]{4}$/\1/p' CHANGELOG.md | head -n 1)"
check 'the manual page' "This page is of version $version." "$(grep '^This page is of version' docs/aspaview.1)"
check '--version' "aspaview $version" "$(./aspaview --version | cut -d ' ' -f 1,2)"
python=$(command -v python3)
if [ -n "$python" ]; then
    check 'python/aspaview' "$version" "$(PYTHONPATH=python python3 -B -c 'import aspaview; print(aspaview.__version__)')"
else
    echo 'skipped: what is in Python, since there is no python3'
fi

# ---- the lines of a script: those of docs/formats.md and of the README, each with an example that the program takes

# spellings: of the table rows that standard input gives, what stands in backticks in the first column.
spellings() {
    cut -d '|' -f 2 | grep -o '`[^`]*`' | tr -d '`' | LC_ALL=C sort -u
}
./aspaview --help >"$work/help"
# (each argument in brackets makes two spellings, as the tables have them)
grep '^  [a-z]' "$work/help" >"$work/page"
cut -c 3-32 "$work/page" | sed -E 's/ *$//; s/ \.\.$/../; s/^(.*) \[(.*)\]$/\1\n\1 \2/' | LC_ALL=C sort -u >"$work/lines"
check 'the lines of --help are those of docs/formats.md' \
    "$(sed -n '/^| Command | Effect |/,/^$/p' docs/formats.md | spellings)" "$(cat "$work/lines")"
check 'the lines of --help are those of README.md' "$(sed -n '/^| Line | Effect |/,/^$/p' README.md | spellings)" "$(cat "$work/lines")"
check 'no line of them has more than 80 columns' '' "$(grep -E '.{81}' "$work/page")"
check '--help take' "$(printf '%s\n' 'take NAME N                    takes the next N PDUs of a feed' '  example: take cache 1' \
    'take NAME N                    takes the next N records of a dump, or messages' '  example: take table 100000000')" "$(./aspaview --help take)"
cut -d ' ' -f 1 "$work/lines" | sort -u >"$work/words"
while read -r word; do
    ./aspaview --help "$word" | sed -n 's/^  example: //p' >"$work/examples"
    check "--help $word: the examples are of this word" "$word" "$(cut -d ' ' -f 1 "$work/examples" | sort -u)"
    case $word in
    # (these two would connect, or wait for who connects)
    feed) check "--help $word: spelled" yes "$(grep -qxE 'feed [a-z]+ [0-9.]+:[0-9]+' "$work/examples" && echo yes)" ;;
    serve) check "--help $word: spelled" yes "$(grep -qxE 'serve [0-9.]+:[0-9]+ [0-9]+ [0-9]+' "$work/examples" && echo yes)" ;;
    *) check "--help $word: spelled" '' "$("$program" run <"$work/examples" | grep -E '^! line [0-9]+ cause 3[1-4] ')" ;;
    esac
done <"$work/words"
check '--help of no line: status, output and errors' "2||aspaview: no line of a script begins with 'tak'; aspaview --help names all lines" \
    "$(./aspaview --help tak >"$work/out" 2>"$work/err"; echo "$?|$(cat "$work/out")|$(cat "$work/err")")"

# ---- a checkout, and a stand-in for the kit

checkout=$work/checkout
mkdir -p "$work/kit/rattle/bin" "$checkout/crates/aspaview/src"
echo 'rattle-kit-1a logic 00ff' >"$work/kit/rattle/KIT-ID"
cat >"$work/kit/rattle/bin/rt" <<end
#!/bin/sh
[ "\$*" = ci ] && mkdir crates/aspaview/out && cp '$program' crates/aspaview/out/ && echo 'rt: aspaview proved'
end
chmod 755 "$work/kit/rattle/bin/rt"
files=(aspaview VERSION README.md CHANGELOG.md LICENSE HANDLES .gitignore docs examples packaging python)
tar --exclude=__pycache__ -cf - "${files[@]}" | tar -C "$checkout" -xf -
echo 'aspaview:' >"$checkout/crates.txt"
echo '//' >"$checkout/crates/aspaview/src/lib.rt"
commit=
if command -v git >/dev/null; then
    (cd "$checkout" && git init -q && git add -A && git -c user.name=test -c user.email=test@localhost commit -q -m all)
    commit="    commit  $(cd "$checkout" && git rev-parse HEAD)"
fi
export PATH=$work/kit/rattle/bin:$PATH
unset DESTDIR SOURCE_DATE_EPOCH ASPAVIEW PYTHONPATH
day=$(sed -nE '/^## /{s///;s/^[0-9.]+, //;p;q}' CHANGELOG.md)

# python_in FOLDER: the version that the package there says.
python_in() {
    PYTHONPATH=$1 python3 -B -c 'import aspaview; print(aspaview.__version__)'
}

# linked WHAT PREFIX: the pages' commands run in a folder with links, and what is in Python finds the package and the program of this prefix.
linked() {
    local what=$1
    rm -rf "$work/linked"
    mkdir "$work/linked"
    ln -s "$2"/share/doc/aspaview/* "$work/linked"
    (
        cd "$work/linked" || exit
        check "$what: ./aspaview" "$(printf '%s\n' valid invalid valid unknown)" "$(./aspaview run <examples/first.txt)"
        [ -n "$python" ] || exit
        check "$what: the Python package" "$version $version" "$(python_in "$2/lib/aspaview/python") $(python_in python)"
        check "$what: watch.py finds the leak" '10 2' \
            "$(python3 -B examples/watch.py --once examples/table.txt examples/updates.mrt >told; echo $? "$(wc -l <told)")"
        check "$what: page.py" '0 AS64501 AS64540 AS64540 to AS64541' "$(python3 -B examples/page.py --script examples/leaked.txt -o page.html
            echo $? "$(grep -o '<b class="invalid">AS[^<]*' page.html | cut -d '>' -f 2 | paste -sd ' ')")"
        export PYTHONPATH=python
        check "$what: python3 -m aspaview" 'kind,verdict judge,valid judge,invalid judge,valid judge,unknown' \
            "$(./aspaview run <examples/first.txt | python3 -B -m aspaview csv --only judge | paste -sd ' ')"
    )
}

# works WHAT PREFIX: what is installed under PREFIX runs, with the program's statuses and its silence, and has the pages.
works() {
    local what=$1 run=$2/bin/aspaview doc=$2/share/doc/aspaview
    check "$what: the first example" "$(printf '%s\n' valid invalid valid unknown 0)" "$(cd "$doc" && "$run" run <examples/first.txt 2>&1; echo $?)"
    check "$what: an example with files" '64503 64501 64501 here routes 3 paths 2' \
        "$(cd "$doc" && "$run" run <examples/leaked.txt | grep '^64503 64501 ')"
    check "$what: a refused line" "$(printf '%s\n' '! line 1 cause 32 Command' 1)" "$(echo no | "$run" run 2>&1; echo $?)"
    check "$what: wrong words, without a text" 2 "$("$run" rnu 2>&1; echo $?)"
    check "$what: no word, without a text" 2 "$("$run" 2>&1; echo $?)"
    ln -sf "$run" "$work/link"
    check "$what: by a link, --version" "aspaview $version of $day, built with rattle-kit-1a logic 00ff" "$("$work/link" --version 2>&1)"
    check "$what: --help has the script's lines" "$(sed -n '/^What attests:$/,$p' "$work/help")" "$("$run" --help | sed -n '/^What attests:$/,$p')"
    check "$what: --help has its own words" "$(head -n 4 "$work/help")" "$("$run" --help | sed '/^$/,$d')"
    check "$what: --help take" "$(./aspaview --help take)" "$("$run" --help take)"
    check "$what: --help of no line" 2 "$("$run" --help ../take 2>/dev/null; echo $?)"
    check "$what: the manual page" '.Dt ASPAVIEW 1' "$(grep '^\.Dt' "$2/share/man/man1/aspaview.1")"
    check "$what: the pages" "$(cat README.md docs/*.md LICENSE VERSION | sha256sum)" \
        "$(cd "$doc" && cat README.md docs/*.md LICENSE VERSION | sha256sum)"
    check "$what: its README has the kit" '    kit     rattle-kit-1a logic 00ff' "$(grep '^    kit ' "$doc/README")"
    check "$what: its README has the commit" "$commit" "$(grep '^    commit ' "$doc/README")"
    check "$what: its README has the sums" "$sources $(sha256sum <"$program" | cut -d ' ' -f 1)" \
        "$(sed -n 's/^    sha256  //p' "$doc/README" | paste -sd ' ')"
    check "$what: everybody may read it, and its owner alone write" '' "$(find "$2" ! -type l \( ! -perm -444 -o -perm /022 \))"
    linked "$what" "$(cd "$2" && pwd)"
}

# ---- installed

root=$work/root
(umask 077 && DESTDIR=$root "$checkout/aspaview" install >"$work/out" 2>"$work/err")
check 'install: status, and it was built first' 0yes "$?$(grep -q 'built after' "$work/err" && echo yes)"
sources=$(sed -n '2s/ .*//p' "$checkout/crates/aspaview/out/launcher.stamp")
check 'the sum of the sources' yes "$([[ $sources =~ ^[0-9a-f]{64}$ ]] && echo yes)"
works 'installed with DESTDIR' "$root/usr/local"
check 'nothing else is in the root' "$(printf '%s\n' /usr /usr/local /usr/local/{bin,lib,share})" \
    "$(find "$root" -mindepth 1 -maxdepth 3 | sed "s:^$root::" | LC_ALL=C sort)"
(cd "$work" && "$checkout/aspaview" install prefix >"$work/out" 2>"$work/err")
check 'install PREFIX: status and errors' 0 "$?$(cat "$work/err")"
works 'installed under a prefix' "$work/prefix"
mv "$work/prefix" "$work/moved"
works 'moved' "$work/moved"
touch "$work/moved/lib/aspaview/lines/gone"
check 'installed again: status' 0 "$("$checkout/aspaview" install "$work/moved" >/dev/null 2>&1; echo $?)"
check 'installed again: a line that there is no more' 2 "$("$work/moved/bin/aspaview" --help gone >/dev/null 2>&1; echo $?)"
if [ -n "$commit" ]; then
    touch "$checkout/examples/mine.mrt" "$checkout/docs/mine.md"
    check 'files beside those of the checkout: installed, and noted' "$commit, with changes that are in no commit" \
        "$("$checkout/aspaview" install "$work/beside" >/dev/null 2>&1 && grep '^    commit ' "$work/beside/share/doc/aspaview/README")"
    check 'files beside those of the checkout are not installed' '' "$(find "$work/beside" -name 'mine.*')"
    check 'all of the checkout is' "$(cd "$work/moved" && find . | LC_ALL=C sort)" "$(cd "$work/beside" && find . | LC_ALL=C sort)"
    rm "$checkout/examples/mine.mrt" "$checkout/docs/mine.md"
fi
check 'install --prefix: status' 2 "$("$checkout/aspaview" install --prefix=/x 2>/dev/null; echo $?)"
touch "$work/file"
check 'a prefix that is a file: status' 70 "$("$checkout/aspaview" install "$work/file" 2>/dev/null; echo $?)"

# ---- packed, twice: the same bytes

# packs FOLDER: makes the packages there, and writes their names.
packs() {
    (cd "$work" && TMPDIR=$work/tmp "$checkout/aspaview" package "$1" 2>"$work/err")
}
mkdir "$work/tmp"
packs one >"$work/names"
find "$checkout" -name .git -prune -o -exec touch -d 2001-01-01 {} +
(umask 077 && packs two >/dev/null)
check 'the packages: nothing is left' '' "$(ls "$work/tmp" && find "$work/one" "$work/two" -name '*.part')"
tar=one/aspaview-$version-linux-$(uname -m).tar.gz
check 'the .tar.gz is made' "$tar" "$(head -n 1 "$work/names")"
check 'the .tar.gz: the same bytes again' '' "$(cmp "$work/$tar" "$work/two/${tar#*/}" 2>&1)"
check 'the .tar.gz: owners and times' "0/0 $(date -u -d "$day" '+%F %R')" \
    "$(TZ=UTC tar --numeric-owner -tvzf "$work/$tar" | awk '{ print $2, $4, $5 }' | sort -u)"
mkdir "$work/unpacked"
tar -C "$work/unpacked" -xzf "$work/$tar"
works 'the .tar.gz' "$work/unpacked/aspaview-$version"
check 'the .tar.gz: README at its top' "aspaview $version, of $day" "$(head -n 1 "$work/unpacked/aspaview-$version/README")"
if [ -n "$python" ]; then
    (
        cd "$work/unpacked/aspaview-$version/share/doc/aspaview" || exit
        echo 'x examples/leaked.mrt' >"$work/list"
        sed '/^open/,$d' examples/leaked.txt >"$work/setup"
        PATH=$work/unpacked/aspaview-$version/bin:$PATH python3 -B examples/collectors/job.py "$work/list" "$work/setup" "$work/results" 1
        check 'the .tar.gz: a job of a list' 0 $?
        check 'the .tar.gz: what jobs found' '64503 64501 64501 here routes 3 jobs 1 paths x:2' \
            "$(python3 -B examples/collectors/merge.py "$work/list" "$work/setup" "$work/results" | grep '^64503 64501')"
    )
fi
if command -v dpkg-deb >/dev/null; then
    deb=one/aspaview_${version}_$(dpkg --print-architecture).deb
    check 'the .deb is made' "$deb" "$(tail -n +2 "$work/names")"
    check 'the .deb: the same bytes again' '' "$(cmp "$work/$deb" "$work/two/${deb#*/}" 2>&1)"
    check 'the .deb: its fields' "aspaview $version" "$(dpkg-deb -W --showformat='${Package} ${Version}' "$work/$deb")"
    dpkg-deb -x "$work/$deb" "$work/deb"
    works 'the .deb' "$work/deb/usr"
    check 'the .deb has what the .tar.gz has' "$(cd "$work/unpacked/aspaview-$version" && find . ! -path ./README | LC_ALL=C sort)" \
        "$(cd "$work/deb/usr" && find . ! -name copyright | LC_ALL=C sort)"
    if [ "$(id -u)" -eq 0 ]; then
        mkdir -p "$work/empty/var/lib/dpkg"/{updates,info}
        touch "$work/empty/var/lib/dpkg"/{status,available}
        dpkg --root="$work/empty" --force-depends --install "$work/$deb" >"$work/out" 2>&1
        check 'dpkg --install: status' 0 $?
        works 'dpkg --install' "$work/empty/usr"
        check 'dpkg --verify' '' "$(dpkg --root="$work/empty" --verify aspaview 2>&1)"
    else
        echo 'skipped: dpkg --install, since this is not root'
    fi
else
    echo 'skipped: the .deb, since there is no dpkg-deb'
fi

echo "$(wc -l <"$work/passed") passed, $(wc -l <"$work/failed") failed"
[ ! -s "$work/failed" ]
