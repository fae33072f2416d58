#!/usr/bin/env bash
# Tests of the launcher, in checkouts of the test's own, which a stand-in for the kit builds: its words, what it says where it can't build,
# when it builds and when it doesn't, what reaches the program, and what is left where it is stopped. The last line is
# 'N passed, M failed', and the status is 0 where none failed.
set -u
cd "$(dirname "$0")/.." || exit
# A shell can't heed a signal that was ignored when it began, as SIGINT is of what another one started in the background. So this begins anew
# with none of them ignored.
if [ -z "${LAUNCHER_TEST-}" ]; then
    export LAUNCHER_TEST=heeds
    exec python3 -c '
import os, signal, sys
for heeded in (signal.SIGINT, signal.SIGTERM, signal.SIGHUP):
    signal.signal(heeded, signal.SIG_DFL)
os.execvp("bash", ["bash", sys.argv[1]])' tests/launcher.sh
fi
unset LAUNCHER_TEST
top=$PWD
work=$(readlink -f "$(mktemp -d)")
trap 'rm -rf "$work"' EXIT
chmod 755 "$work"
. tests/checks.bash

# holds WHAT TEXT PATTERN: some line of the text is like the pattern.
holds() {
    check "$1: $3" yes "$(grep -qE -- "$3" <<<"$2" && echo yes || printf '%s' "$2")"
}

# ---- the stand-ins: a kit, a checkout of a few crates, and a program that writes what it gets

mkdir -p "$work/kit/rattle/bin" "$work/path" "$work/stub" "$work/tmp" "$work/elsewhere"
chmod 1777 "$work/tmp"
export TMPDIR=$work/tmp
echo 'rattle-kit-1a logic 00ff' >"$work/kit/rattle/KIT-ID"
ln -s "$work/kit/rattle/bin/rt" "$work/path/rt"
cat >"$work/kit/rattle/bin/rt" <<end
#!/bin/sh
# Says in calls what it was asked; while the file hold is there it waits, where the file refuse is there it fails, and where the file during
# is there it does once what that says.
stub=$work/stub
end
cat >>"$work/kit/rattle/bin/rt" <<'end'
echo "$*" >>"$stub/calls"
echo $$ >"$stub/pid"
program() {
    mkdir -p "$1"
    cat >"$1/aspaview" <<'program'
#!/bin/sh
printf '<%s>' "$@"
echo
pwd
cat
{ cat <&9; } 2>/dev/null
exit 6
program
    chmod 755 "$1/aspaview"
}
if [ -e "$stub/during" ]; then
    mv "$stub/during" "$stub/done"
    . "$stub/done"
fi
case "$*" in
ci)
    find . -type f | LC_ALL=C sort >"$stub/copy"
    for name in $(sed -n 's/:.*//p' crates.txt); do
        echo "rt: $name is kept: by the stand-in"
        while [ -e "$stub/hold" ]; do sleep 0.05; done
    done
    if [ -e "$stub/layout" ]; then
        rm "$stub/layout"
        echo "rt: run rt fmt in the crate's folder"
    elif [ -e "$stub/refuse" ]; then
        echo 'rt: aspaview NOT PROVED'
        exit 1
    else
        echo 'rt: aspaview proved'
        program crates/aspaview/out
    fi
    ;;
'all check --jobs '*)
    printf '== base\n== part\n== aspaview\n== summary\n'
    [ ! -e "$stub/refuse" ]
    ;;
'run -- run') program out ;;
esac
end
chmod 755 "$work/kit/rattle/bin/rt"

# checkout FOLDER: three crates that the program needs, and one that only tests it.
checkout() {
    local name
    mkdir -p "$1"
    cp "$top/aspaview" "$1/"
    echo 'Proved with the kit rattle-kit-1a logic 00ff.' >"$1/README.md"
    printf '%s\n' '# What came when' '' '## 1.2.3, 1 May 2001' '' '## 1 May 2000' >"$1/CHANGELOG.md"
    echo 1.2.3 >"$1/VERSION"
    echo 'Handles allowed: Net.' >"$1/HANDLES"
    printf '%s\n' 'base: slab' 'part: base' 'aspaview: part base' 'worked: base' >"$1/crates.txt"
    for name in base part aspaview worked; do
        mkdir -p "$1/crates/$name"/{src,specs,must-fail}
        echo "// $name" | tee "$1/crates/$name"/{src/lib.rt,specs/Lib.antt,must-fail/wrong.edit} >/dev/null
    done
}

# call WORD..: calls the launcher of the checkout `here`, with a text as input, and leaves its status, output and errors.
here=$work/checkout
here_path=$work/path:/usr/bin:/bin
call() {
    : >"$work/stub/calls"
    echo input | PATH=$here_path "$here/aspaview" "$@" >"$work/out" 2>"$work/err"
    status=$?
    out=$(cat "$work/out") err=$(cat "$work/err") calls=$(cat "$work/stub/calls")
}

# refused WHAT PATTERN: the last call said so in one line, and nothing else.
refused() {
    check "$1: status" 70 "$status"
    check "$1: lines" '0 1' "$(wc -l <"$work/out") $(wc -l <"$work/err")"
    holds "$1" "$err" "$2"
    check "$1: nothing is left" '' "$(ls "$work/tmp")"
}

# ran WHAT CALLS: the last call ran the program, and asked the kit this before.
ran() {
    check "$1: status" 6 "$status"
    check "$1: asked" "$2" "$calls"
    check "$1: nothing is left" '' "$(ls "$work/tmp")"
}

# quiet WHAT: the last call ran the program, built nothing and said nothing.
quiet() {
    ran "$1" ''
    check "$1: nothing is said" '' "$err"
}

# as_nobody COMMAND..: as a user who may write nowhere.
as_nobody() {
    setpriv --reuid=65534 --regid=65534 --clear-groups "$@"
}
nobody=no
if [ "$(id -u)" -eq 0 ] && as_nobody true 2>/dev/null; then nobody=yes; fi

# ---- words that need no program

checkout "$here"
call
check 'no word: status, output and calls' '2||' "$status|$out|$calls"
usage=$err
holds 'no word' "$usage" '^usage: aspaview run < SCRIPT '
for word in --help -h help; do
    call "$word"
    check "$word" "0|$usage||" "$status|$out|$err|$calls"
done
call --version
holds '--version' "$status|$out|$err|$calls" '^0\|aspaview 1\.2\.3 of 1 May 2001, to be built with rattle-kit-1a logic 00ff\|\|$'
for words in rnu 'run run' 'demo' 'demo x' 'demo 01' 'demo 4294967296' 'demo 99999999999999999999' 'demo 1 2' --demo; do
    # shellcheck disable=SC2086
    call $words
    check "$words: status, output, errors and calls" "2||$usage|" "$status|$out|$err|$calls"
done
check 'nothing is built for these words' no "$([ -e "$here/crates/aspaview/out" ] && echo yes || echo no)"

# ---- where it can't be built

if PATH=/usr/bin:/bin command -v rt >/dev/null; then
    echo 'skipped: without a kit, since one is in /usr/bin'
else
    here_path=/usr/bin:/bin
    call run
    refused 'no kit' "isn't built yet, and no Rattle kit is there .* rt must be on the PATH$"
    call --version
    holds '--version without a kit' "$status|$out|$err" '^0\|aspaview 1\.2\.3 of 1 May 2001, to be built with rattle-kit-1a logic 00ff\|$'
fi
printf '#!/bin/sh\n' >"$work/elsewhere/rt"
chmod 755 "$work/elsewhere/rt"
here_path=$work/elsewhere:/usr/bin:/bin
call run
refused 'an rt of no kit' "isn't built yet, and the rt on the PATH, $work/elsewhere/rt, is of no Rattle kit"
here_path=$work/path:/usr/bin:/bin
if [ $nobody = yes ]; then
    PATH=$here_path as_nobody "$here/aspaview" run >"$work/out" 2>"$work/err" </dev/null
    status=$? err=$(cat "$work/err")
    refused 'a read-only checkout' "isn't built yet, and $here/crates/aspaview/out can't be written to: "
else
    echo 'skipped: a read-only checkout, since this is not root or there is no setpriv'
fi
TMPDIR=$work/nowhere call run
refused 'no place for temporary files' "isn't built yet, and $work/nowhere can't be written to, where a build has its files$"
cp aspaview "$work/elsewhere/"
here=$work/elsewhere
call run
refused 'the launcher alone' "$work/elsewhere is no checkout of aspaview; "
here=$work/checkout
touch "$work/stub/refuse"
call run
check 'the kit refuses: status and output' '70|' "$status|$out"
holds 'the kit refuses' "$err" '^rt: aspaview NOT PROVED$'
holds 'the kit refuses' "$err" "could not be built; all that the kit said is in $here/crates/aspaview/out/launcher.log$"
holds 'the kit refuses' "$(cat "$here/crates/aspaview/out/launcher.log")" '^rt: part is kept: by the stand-in$'
rm "$work/stub/refuse"

# ---- the first build, and what reaches the program

ln -s "$here/aspaview" "$work/elsewhere/link"
mkdir "$work/folder"
: >"$work/stub/calls"
(cd "$work/folder" && echo input | PATH=$here_path "$work/elsewhere/link" demo 4294967295 9< <(echo nine) >"$work/out" 2>"$work/err")
check 'the first build: the status is the program'"'"'s' 6 $?
check 'words, folder, input and what is open as 9' "$(printf '%s\n' '<demo><4294967295>' "$work/folder" input nine)" "$(cat "$work/out")"
check 'the first build: asked' ci "$(cat "$work/stub/calls")"
check 'what is proved' "$(printf './%s\n' HANDLES crates.txt crates/{aspaview,base,part}/{specs/Lib.antt,src/lib.rt} | LC_ALL=C sort)" \
    "$(cat "$work/stub/copy")"
err=$(cat "$work/err")
for it in "isn't built yet; it is proved and built first: 3 crates" 'Ctrl-C loses nothing that is proved' "goes to $here/crates/aspaview/out/launcher.log" \
    '^aspaview: 3 of 3 crates done after [0-9]+ s, the last [a-z]+$' 'built after [0-9]+ s$'; do
    holds 'the first build' "$err" "$it"
done
check 'the first build: nothing is left' '' "$(ls "$work/tmp")"
call run
quiet 'a second call'
POSIXLY_CORRECT=1 call run
quiet 'a second call in a shell by POSIX'
call --version
holds '--version' "$status|$out|$err|$calls" '^0\|aspaview 1\.2\.3 of 1 May 2001, built with rattle-kit-1a logic 00ff\|\|$'
if ! PATH=/usr/bin:/bin command -v rt >/dev/null; then
    here_path=/usr/bin:/bin
    call run
    quiet 'a built program without a kit'
    here_path=$work/path:/usr/bin:/bin
fi
if [ $nobody = yes ]; then
    echo input | PATH=$here_path as_nobody "$here/aspaview" run >"$work/out" 2>"$work/err"
    status=$?
    check 'a built program in a read-only checkout' "6|$(printf '%s\n' '<run>' "$top" input)|" "$status|$(cat "$work/out")|$(cat "$work/err")"
    echo 'rattle-kit-2b logic 11ee' >"$work/kit/rattle/KIT-ID"
    PATH=$here_path as_nobody "$here/aspaview" run >"$work/out" 2>"$work/err" </dev/null
    check 'the same with another kit' '6|' "$?|$(cat "$work/err")"
    echo 'rattle-kit-1a logic 00ff' >"$work/kit/rattle/KIT-ID"
    chmod 700 "$here/crates/aspaview/out"
    PATH=$here_path as_nobody "$here/aspaview" run >"$work/out" 2>"$work/err" </dev/null
    status=$? err=$(cat "$work/err")
    refused 'a build that only its user may read' "what was built can't be read \($here/crates/aspaview/out\), and .* can't be written to: "
    chmod 755 "$here/crates/aspaview/out"
fi

# ---- what is built again

echo '// more' >>"$here/crates/worked/src/lib.rt"
echo '// more' >>"$here/crates/base/must-fail/wrong.edit"
call run
quiet 'a file that the program is not made from'
touch "$here/crates/base/src/lib.rt"
call run
quiet 'a source that was touched'
cp -a "$here" "$work/copied"
here=$work/copied
call run
quiet 'a copied checkout'
here=$work/checkout
echo '// more' >>"$here/crates/base/src/lib.rt"
call run
ran 'a changed source' ci
holds 'a changed source' "$err" "the sources aren't those that the program was built from; it is proved and built first"
echo '// More' >"$work/old.rt"
touch -d '2001-01-01' "$work/old.rt"
mv "$work/old.rt" "$here/crates/part/src/lib.rt"
call run
ran 'an older file in place of a source' ci
echo '// new' >"$here/crates/part/src/new.rt"
call run
ran 'a new source' ci
rm "$here/crates/part/src/new.rt"
call run
ran 'a source that is gone' ci
sed -i 's/^part: base/part: base slab/' "$here/crates.txt"
call run
ran 'a crate that uses another' ci
echo "sed -i 's/^base: slab/base: slab itoa/' $here/crates.txt" >"$work/stub/during"
echo '// more' >>"$here/crates/part/src/lib.rt"
call run
ran 'crates.txt changes during the build' ci
call run
ran 'crates.txt changed during the build' ci
echo '# a comment' >>"$here/crates.txt"
call run
quiet 'a comment in crates.txt'
echo '# more' >>"$here/crates/aspaview/out/aspaview"
call run
ran 'another program in its place' ci
rm "$here/crates/aspaview/out/aspaview"
call run
ran 'a program that is gone' ci
echo 'rattle-kit-2b logic 11ee' >"$work/kit/rattle/KIT-ID"
call run
ran 'another kit' ci
holds 'another kit' "$err" 'the program was built with another kit, rattle-kit-1a logic 00ff; it is proved and built first'
holds 'another kit' "$err" 'the kit on the PATH is rattle-kit-2b logic 11ee, and what is here was proved with rattle-kit-1a logic 00ff, '
call --version
holds '--version with another kit' "$out" 'built with rattle-kit-2b logic 11ee$'
call run
quiet 'another kit, a second call'
echo 'rattle-kit-1a logic 00ff' >"$work/kit/rattle/KIT-ID"
touch "$work/stub/refuse"
call run
check 'another kit that refuses: status and output' '70|' "$status|$out"
holds 'another kit that refuses' "$err" 'the program as rattle-kit-2b logic 11ee built it is still there, and runs where no rt is on the PATH$'
rm "$work/stub/refuse"
call run
ran 'the kit from before' ci

cat >"$work/elsewhere/rt" <<end
#!/bin/sh
if [ "\$1" = version ]; then echo 'rattle-kit-3c logic 22dd'; else exec $work/kit/rattle/bin/rt "\$@"; fi
end
here_path=$work/elsewhere:/usr/bin:/bin
call run
ran 'a kit that only rt version tells' ci
holds 'a kit that only rt version tells' "$err" 'the kit on the PATH is rattle-kit-3c logic 22dd, '
call run
quiet 'a kit that only rt version tells, a second call'
here_path=$work/path:/usr/bin:/bin
call run
ran 'the kit from before, again' ci

# ---- other ways to prove

echo '//  More' >"$here/crates/part/src/lib.rt"
touch "$work/stub/layout"
call run
ran 'a source that is not laid out' "$(printf '%s\n' ci fmt fmt fmt ci)"
holds 'a source that is not laid out' "$err" "isn't laid out as the kit wants it"
check 'a source that is not laid out stays so' '//  More' "$(cat "$here/crates/part/src/lib.rt")"
mkdir "$here/crates"/{base,part,aspaview}/out/incremental -p
echo '// more' >>"$here/crates/part/src/lib.rt"
call run
ran 'over kept checks' "$(printf '%s\n' "all check --jobs $(sed -n 's/^all check --jobs \([1-9][0-9]*\)$/\1/p' <<<"$calls")" 'run -- run')"
holds 'over kept checks' "$err" '3 of 3 crates done'
call run
quiet 'over kept checks, a second call'
cp "$here/crates/part/src/lib.rt" "$work/old.rt"
echo '// more' >>"$here/crates/part/src/lib.rt"
touch "$work/stub/refuse"
call run
check 'over kept checks, refused: status' 70 "$status"
rm "$work/stub/refuse"
cp "$work/old.rt" "$here/crates/part/src/lib.rt"
call run
quiet 'over kept checks, the source as it was before the refusal'
echo '// more' >>"$here/crates/part/src/lib.rt"
printf '%s\n' "cp $here/crates/base/src/lib.rt $work/old.rt" "echo '// other' >>$here/crates/base/src/lib.rt" \
    "cp $work/old.rt $here/crates/base/src/lib.rt" >"$work/stub/during"
call run
holds 'over kept checks, a source that changes back and forth' "$status|$calls" '^6\|all check '
call run
holds 'over kept checks, a source that changed back and forth' "$status|$calls" '^6\|all check '
call run
quiet 'over kept checks, the call behind these'
rmdir "$here/crates/base/out/incremental"
if [ "$(id -u)" -eq 0 ]; then
    mkdir "$work/kit/rattle-kept"
    chown 65534 "$work/kit/rattle-kept"
    echo '// more' >>"$here/crates/part/src/lib.rt"
    call run
    check 'where the kit can keep nothing: status' 6 "$status"
    holds 'where the kit can keep nothing' "$calls" '^run -- run$'
    rmdir "$work/kit/rattle-kept"
else
    echo 'skipped: a kit that can keep nothing, since this is not root'
fi

# ---- two at once, and what is stopped

# until_so COMMAND..: waits at most ten seconds.
until_so() {
    local i
    for ((i = 0; i < 200; i++)); do
        "$@" 2>/dev/null && return
        sleep 0.05
    done
    check "waited for: $*" yes no
}

rm -r "$here/crates/aspaview/out"
touch "$work/stub/hold"
: >"$work/stub/calls"
echo one | PATH=$here_path "$here/aspaview" run >"$work/out1" 2>"$work/err1" &
first=$!
until_so grep -q . "$work/stub/calls"
echo two | PATH=$here_path "$here/aspaview" run >"$work/out2" 2>"$work/err2" &
second=$!
until_so grep -q 'another call is building the program, and this one waits for it' "$work/err2"
rm "$work/stub/hold"
wait $first
check 'two at once: the first' "6|one" "$?|$(tail -n 1 "$work/out1")"
wait $second
check 'two at once: the second' "6|two" "$?|$(tail -n 1 "$work/out2")"
check 'two at once: built once' ci "$(cat "$work/stub/calls")"
check 'two at once: nothing is left' '' "$(ls "$work/tmp")"

# (with job control, a call in the background heeds SIGINT, and has a group of its own as on a terminal)
set -m
for signal in INT:130 TERM:143 HUP:129; do
    rm -r "$here/crates/aspaview/out"
    touch "$work/stub/hold"
    : >"$work/stub/calls"
    PATH=$here_path "$here/aspaview" run </dev/null >"$work/out" 2>"$work/err" &
    first=$!
    until_so grep -q . "$work/stub/calls"
    until_so grep -q 'of 3 crates done' "$work/err"
    kill -s "${signal%:*}" -- -$first
    # (where it isn't heeded the wait would have no end)
    (sleep 30 && kill -s KILL -- -$first) 2>/dev/null &
    guard=$!
    wait $first 2>/dev/null
    check "$signal: status" "${signal#*:}" $?
    kill -s KILL -- -$guard 2>/dev/null
    wait $guard 2>/dev/null
    holds "$signal" "$(cat "$work/err")" '^aspaview: stopped; the next call goes on from what is proved$'
    check "$signal: nothing is left" '' "$(ls "$work/tmp")"
    check "$signal: the log alone is left" launcher.log "$(ls "$here/crates/aspaview/out")"
    check "$signal: the kit has ended" no "$(kill -0 "$(cat "$work/stub/pid")" 2>/dev/null && echo yes || echo no)"
    rm "$work/stub/hold"
    call run
    ran "$signal: the next call" ci
    check "$signal: the next call doesn't wait" '' "$(grep waits "$work/err")"
done
set +m

# ---- the time of a call, over the repository's own sources

here=$work/repository
mkdir "$here"
tar --exclude=out --exclude=.git -cf - aspaview VERSION README.md CHANGELOG.md HANDLES crates.txt crates | tar -C "$here" -xf -
call run
ran 'the repository'"'"'s crates' ci
holds 'the repository'"'"'s crates' "$(cat "$work/stub/copy")" '^./crates/path_model/src/lib.rt$'
check 'no crate of tests is needed' '' "$(grep -E '/(worked_|witness_checker)' "$work/stub/copy")"
# least LIMIT COMMAND..: the microseconds that the fastest of some runs takes; the first one below the limit ends them.
least() {
    local limit=$1 i began took found=1000000
    shift
    for ((i = 0; i < 60 && found >= limit; i++)); do
        began=${EPOCHREALTIME/./}
        PATH=$here_path "$@" </dev/null >/dev/null
        took=$((${EPOCHREALTIME/./} - began))
        ((took >= found)) || found=$took
    done
    echo "$found"
}

# is_busy: whether other work has all processors, each time that one looks.
is_busy() {
    local i running
    for ((i = 0; i < 20; i++)); do
        read -r _ _ _ running _ </proc/loadavg
        ((${running%/*} > $(nproc))) || return 1
        sleep 0.05
    done
}
own=$(least 2000 "$here/crates/aspaview/out/aspaview" run)
# (each source is looked at, so on a slow machine a call may take what three such looks at all of them take)
look=$(least 1000 find "$here/crates" -printf '%C@\n')
limit=$((3 * look > 20000 ? 3 * look : 20000))
took=$(($(least $((own + limit)) "$here/aspaview" run) - own))
if ((took >= limit)) && is_busy; then
    echo "skipped: that a call takes less than $limit µs ($took µs), since other work has all processors"
else
    check "a call takes less than $limit µs beside the program's own time ($took µs)" yes "$( ((took < limit)) && echo yes || echo no)"
fi

# ---- what the launcher reads of the pages

call --version
holds 'the version, the day and the kit' "$out" '^aspaview [0-9.]+ of [0-9]+ [A-Z][a-z]+ 20[0-9]+, built with rattle-kit-1a logic 00ff$'
holds 'the kit that the README names' "$(cat README.md)" 'rattle-kit-[a-z0-9]+ logic [0-9a-f]+'

passed=$(wc -l <"$work/passed")
failed=$(wc -l <"$work/failed")
echo "$passed passed, $failed failed"
[ "$failed" -eq 0 ]
