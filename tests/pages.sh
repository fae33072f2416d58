#!/usr/bin/env bash
# Tests of the pages: each of their examples is run with the built program, and what it prints is compared with what the page shows. The last
# line is 'N passed, M failed', and the status is 0 where none failed.
#
# Above each code block of a page stands a comment that says what it is:
#
#   <!-- run: FILE -->                 it is the text of this example, which is run
#   <!-- run -->                       it is a script, which is run
#   <!-- text: FILE -->                it is the text of this example, which is run by a block behind it
#   <!-- shell -->                     it is commands for the shell, which are run in a folder with the examples, python and ./aspaview
#   <!-- prints -->                    it is all that the run above it has written
#   <!-- prints some -->               it is some of these lines, in their order
#   <!-- prints of: COMMAND -->        it is all that this command writes; so with 'prints some of: COMMAND'
#   <!-- judged -->                    above a table: the lines of the first column, behind the script above, have the verdict of the second,
#                                      and the witness, if it has one, where a number that is 0 is left out
#   <!-- judged with suspects -->      the same, and the third column has the ASes of each valley, in their order, with '; ' between two
#   <!-- not run: REASON -->           it is neither, or can't be run here
#
# Behind 'run' and 'shell' ', status N' may stand, where the status isn't 0, or ', not shown', where the page doesn't show what is written; and
# behind each ', needs NAME', of a program or a package of Python's, or ', needs NAME N', of a program of version N or later: it is skipped where
# that isn't there. A block without such a comment fails. In the manual page a line that begins with '$ ' is a command, and what follows is
# what it writes.
set -u
cd "$(dirname "$0")/.." || exit
top=$PWD
program=$PWD/crates/aspaview/out/aspaview
export ASPAVIEW=$program # for the package in python/
pages='README.md CHANGELOG.md docs/*.md'
manual=docs/aspaview.1
work=$(mktemp -d)
box=$work/box
cache=
trap '[ -z "$cache" ] || kill "$cache"; rm -rf "$work"' EXIT
mkdir "$work/blocks"
touch "$work/commands"
. tests/checks.bash

# `rt ci` has built the program; where it hasn't, the launcher does.
[ -x "$program" ] || ./aspaview run </dev/null

# ---- the examples' data are those that their scripts write

cp -r examples "$work/examples"
(cd "$work/examples" && rm -f ./*.mrt ./*.bmp neighbours.base64 && python3 make_dumps.py && python3 make_bmp.py && rm -rf __pycache__)
check 'make_dumps.py and make_bmp.py write the data of the examples' '' "$(diff -r -x __pycache__ examples "$work/examples" 2>&1)"

# ---- a cache for the feeds, at a port that is free, for as long as this script runs; and another port, at which routers are served

port=$(free_port)
served=$(free_port)
sed -i "s/8282/$port/" "$work/examples/cache.py" "$work/examples/feed.txt"
sed -i "s/8283/$served/" "$work/examples/serve.txt" "$work/examples/router.txt" "$work/examples/openbgpd.sh"
timeout 1800 python3 "$work/examples/cache.py" >"$work/cache" 2>&1 &
cache=$!
for ((i = 0; i < 100; i++)); do
    (exec 3<>"/dev/tcp/127.0.0.1/$port") 2>/dev/null && break
    sleep 0.1
done

# ---- blocks, one after another

# a folder as the repository's, for the examples of one page
new_box() {
    rm -rf "$box"
    mkdir "$box"
    cp -r "$work/examples" "$box/examples"
    ln -s "$program" "$box/aspaview"
    ln -s "$top/python" "$box/python"
}

# performs PLACE STATUS FILE: the script in the file ends with this status; what it writes is in $work/out.
performs() {
    local status
    sed "s/127\.0\.0\.1:8282/127.0.0.1:$port/" "$3" >"$work/script"
    (cd "$box" && timeout 100 ./aspaview run) <"$work/script" >"$work/out" 2>"$work/err"
    status=$?
    check "$1: status, and nothing on standard error" "$2" "$status$(cat "$work/err")"
}

# obeys PLACE STATUS FILE: so do the commands in the file. The cache, which some of them start, runs already; the launcher has words of its own.
obeys() {
    local status
    sed "/python3 examples\/cache\.py &/d; s:^\./aspaview --:$top/aspaview --:" "$3" | tee -a "$work/commands" >"$work/script"
    (cd "$box" && timeout 100 bash "$work/script") </dev/null >"$work/out" 2>"$work/err"
    status=$?
    check "$1: status, and nothing on standard error" "$2" "$status$(cat "$work/err")"
}

# in_order TEXT: those lines of what was written that are the lines of the text, each behind the one before it
in_order() {
    awk 'NR == FNR { line[++n] = $0; next } at < n && $0 == line[at + 1] { at++; print }' "$1" "$work/out"
}

# made NEIGHBOUR AS..: a table dump of one route with this path.
made() {
    (cd "$box/examples" && python3 -B -c 'import sys; from make_dumps import table; peer, *path = map(int, sys.argv[1:])
sys.stdout.buffer.write(table([("192.0.2.1", peer)], [("192.0.2.0/24", [(0, path)])]))' "$@" </dev/null)
}

# judged HOW PLACE FILE: the rows of a table, behind the script that was run
judged() {
    local how=$1 place line cell valleys words
    shift
    while IFS='|' read -r _ line cell valleys _; do
        [[ $line =~ \`(judge .*)\` ]] || continue
        line=${BASH_REMATCH[1]}
        place="$1: $line"
        read -ra words <<<"$line"
        made "${words[@]:2}" >"$box/made.mrt"
        { cat "$work/last"; printf '%s\n' "$line" "role ${words[2]} ${words[1]}" 'open made made.mrt' 'take made 2' \
            "why 192.0.2.1 ${words[2]} 192.0.2.0/24"; } >"$work/row"
        if [ "$how" = 'judged with suspects' ]; then
            { cat "$work/row"; echo suspects; } >"$work/row_with"
            performs "$place: valleys" 0 "$work/row_with"
            read -r valleys <<<"$valleys"
            check "$place: valleys" "$valleys" "$(sed -n 's/ routes 1 paths 1$//p' "$work/out" | paste -sd ';' | sed 's/;/; /g')"
        fi
        performs "$place" 0 "$work/row"
        read -r cell <<<"${cell//,/}"
        check "$place" "${cell%% *}" "$(tail -n 2 "$work/out" | head -n 1)"
        [[ $cell != *' '* ]] || check "$place: witness" "$cell" "$(tail -n 1 "$work/out" | sed -E 's/ (climbs|free|descents) 0\>//g')"
    done <"$2"
}

# shown: what the last run wrote is shown by a block behind it, unless it is said that it isn't.
unshown=
shown() {
    [ -z "$unshown" ] || check "$unshown: what it writes is shown" yes no
    unshown=
}

# is_there NAME VERSION: whether a program of this name is there, of this version or a later one if there is one, or a package of Python's.
is_there() {
    local version=0
    if ! command -v "$1" >/dev/null; then
        python3 -c "import $1" 2>/dev/null
    elif [ -n "$2" ]; then
        version=$("$1" -V 2>&1 </dev/null | grep -oE '[0-9]+' | head -n 1)
        [ "${version:-0}" -ge "$2" ]
    fi
}

# block PLACE MARKER FILE
block() {
    local place=$1 how=$2 text=$3 status=0 hidden=no
    if [[ $how =~ ^(.*),\ needs\ ([a-z0-9]+)(\ ([0-9]+))?$ ]]; then
        how=${BASH_REMATCH[1]}
        is_there "${BASH_REMATCH[2]}" "${BASH_REMATCH[4]}" || { echo "skipped: $place ${BASH_REMATCH[0]##*, }"; return; }
    fi
    if [[ $how =~ ^(.*),\ not\ shown$ ]]; then
        how=${BASH_REMATCH[1]}
        hidden=yes
    fi
    if [[ $how =~ ^(.*),\ status\ ([0-9]+)$ ]]; then
        how=${BASH_REMATCH[1]}
        status=${BASH_REMATCH[2]}
    fi
    case $how in
    prints | 'prints some') unshown= ;;
    *) shown ;;
    esac
    case $how in
    run | 'run: '*)
        [ "$how" = run ] || check "$place: the text of ${how#run: }" "$(cat "${how#run: }")" "$(cat "$text")"
        cp "$text" "$work/last"
        performs "$place" "$status" "$text"
        [ $hidden = yes ] || [ ! -s "$work/out" ] || unshown=$place
        ;;
    'text: '*)
        check "$place: the text of ${how#text: }" "$(cat "${how#text: }")" "$(cat "$text")"
        echo 'nothing was run for the block above' >"$work/out"
        ;;
    shell)
        obeys "$place" "$status" "$text"
        [ $hidden = yes ] || [ ! -s "$work/out" ] || unshown=$place
        ;;
    'prints of: '* | 'prints some of: '*)
        echo "${how#*of: }" >"$work/command"
        obeys "$place" "$status" "$work/command"
        ;;&
    prints | 'prints of: '*) check "$place" "$(cat "$text")" "$(cat "$work/out")" ;;
    'prints some' | 'prints some of: '*)
        check "$place: some lines" yes "$([ -s "$text" ] && echo yes)"
        check "$place" "$(cat "$text")" "$(in_order "$text")"
        ;;
    judged | 'judged with suspects') judged "$how" "$place" "$text" ;;
    'not run: '?*) echo 'nothing was run for the block above' >"$work/out" ;;
    *) check "$place: a comment above the block says what it is" 'run, text, shell, prints, judged or not run' "${how:-none}" ;;
    esac
}

for page in $pages; do
    new_box
    rm -f "$work"/blocks/*
    awk -v OUT="$work/blocks" -v PAGE="${page//\//.}" -f tests/blocks.awk "$page"
    for how in "$work"/blocks/*.how; do
        [ -e "$how" ] || continue
        block "$(cat "${how%.how}.place")" "$(cat "$how")" "${how%.how}.text"
    done
    shown
done

# ---- the manual page: its examples, and its lint

new_box
awk -v OUT="$work/blocks" '/^\.Bd -literal/ { on = 1; n++; next } /^\.Ed/ { on = 0 } on { print > (OUT "/manual-" n) }' "$manual"
for transcript in "$work"/blocks/manual-*; do
    awk -v OUT="$work" '/^\$ / { here = / << end/; print substr($0, 3) > (OUT "/typed"); next }
        here { here = $0 != "end"; print > (OUT "/typed"); next }
        { print > (OUT "/shown") }' "$transcript"
    obeys "$manual: ${transcript##*-}" 0 "$work/typed"
    check "$manual: ${transcript##*-}" "$(cat "$work/shown")" "$(cat "$work/out")"
done
if command -v mandoc >/dev/null; then
    check "$manual: mandoc has nothing to say" '' "$(mandoc -Tlint "$manual" 2>&1)"
else
    echo 'skipped: the lint of the manual page needs mandoc'
fi

# ---- what pages say alike: the causes with their words, large numbers, the kit, and verdicts within sentences

# causes: of lines 'N WORD' those that are a cause with its word
causes() {
    awk '$1 >= 5 && $1 <= 48 && $2 ~ /^[A-Z][a-z]+[A-Za-z0-9]*$/ {print $1, $2}' | sort -u
}
rows='s/^\| ([0-9]+) \| ([A-Za-z0-9]+) \|.*/\1 \2/p'
sed -nE "$rows" docs/formats.md | causes >"$work/causes"
check 'the causes of docs/formats.md' 44 "$(wc -l <"$work/causes")"
check 'the causes of docs/guide.md' "$(cat "$work/causes")" "$(sed -nE "$rows" docs/guide.md | causes)"
check "the causes of $manual" "$(cat "$work/causes")" "$(sed -n 's/^\.It //p' "$manual" | causes)"
# shellcheck disable=SC2086
check 'the causes within sentences' '' "$(grep -ohE 'cause [0-9]+ [A-Z][A-Za-z0-9]+' $pages | sed 's/cause //' | sort -u | comm -23 - "$work/causes")"
# shellcheck disable=SC2086
check 'large numbers' '100000000 4194304 4294967295 67108864 ' \
    "$(grep -ohE '\<[0-9]{1,3}(,[0-9]{3}){2,}\>|\<[0-9]{7,}\>' $pages "$manual" | tr -d , | grep -vxE '20250101|500000000|17[0-9]{8}' | sort -u | tr '\n' ' ')"
# shellcheck disable=SC2086
check 'mebibytes' '4 MiB 64 MiB ' "$(grep -ohE '[0-9]+ MiB' $pages "$manual" | sort -u | tr '\n' ' ')"
# shellcheck disable=SC2086
check 'one kit' 1 "$(grep -ohE 'rattle-kit-\w+ logic [0-9a-f]+' $pages | sort -u | wc -l)"
# shellcheck disable=SC2086,SC2016
cat $pages | tr -s ' \n' ' ' | grep -oE '`judge [^`]+` is `[a-z]+`' >"$work/sentences"
while IFS='`' read -r _ line _ verdict _; do
    echo "$line" >"$work/row"
    performs "$line" 0 "$work/row"
    check "$line" "$verdict" "$(cat "$work/out")"
done <"$work/sentences"

# ---- nothing is left out: each example is on a page, each file that a page names is there, and the README stays short

for file in examples/*.txt; do
    # shellcheck disable=SC2086
    check "$file is run by a page" 0 "$(cat $pages "$work/commands" | grep -qE "^<!-- run: $file\b|^[^#<]*$file"; echo $?)"
done
for file in examples/*.py; do
    case $file in
    examples/cache.py | examples/make_dumps.py | examples/make_bmp.py) ;; # run above
    *) check "$file is run by a page" 0 "$(grep -q "$file" "$work/commands"; echo $?)" ;;
    esac
done
find . -path ./.git -prune -o -type f -print | sed 's/^\.//' >"$work/files"
# shellcheck disable=SC2086,SC2016
grep -ohE '`[A-Za-z0-9_./-]+\.(rt|antt|md|txt|py|sh|awk|mrt|bmp|json|base64|payloads)`' $pages | tr -d '`' >"$work/names"
awk '/^\.Pa / { sub(/^\.\//, "", $2); print $2 }' "$manual" >>"$work/names"
grep -v '/out/' "$work/names" | sort -u >"$work/named"
while read -r name; do
    check "the file $name, which a page names, is there" 0 "$(grep -q "/${name//./\\.}\$" "$work/files"; echo $?)"
done <"$work/named"
check 'README.md has at most 300 lines' yes "$([ "$(wc -l <README.md)" -le 300 ] && echo yes)"

echo "$(wc -l <"$work/passed") passed, $(wc -l <"$work/failed") failed"
[ ! -s "$work/failed" ]
