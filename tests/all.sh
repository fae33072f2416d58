#!/usr/bin/env bash
# All tests: the proof of every crate, its must-fail edits, its tests and the program's runs by `rt ci`, and then the scripts of this
# folder, but for refused_memory.sh, which needs a C compiler. The last line is 'N passed, M failed' over all of them, and the status is 0 where none failed.
set -u
cd "$(dirname "$0")/.." || exit
log=$(mktemp)
trap 'rm -f "$log"' EXIT
passed=0
failed=0

# part COMMAND..: runs it, and adds the counts of its last line. One that fails without saying so is a failure more.
part() {
    local status last
    "$@" 2>&1 | tee "$log"
    status=${PIPESTATUS[0]}
    last=$(tail -n 1 "$log")
    if [[ $last =~ ^([0-9]+)\ passed,\ ([0-9]+)\ failed$ ]]; then
        passed=$((passed + BASH_REMATCH[1]))
        failed=$((failed + BASH_REMATCH[2]))
        if [ "$status" -ne 0 ] && [ "${BASH_REMATCH[2]}" -eq 0 ]; then
            failed=$((failed + 1))
        fi
    else
        failed=$((failed + 1))
    fi
}

part rt ci
for script in tests/*.sh; do
    case $script in
    tests/all.sh | tests/refused_memory.sh) ;;
    *) part "$script" ;;
    esac
done
echo "$passed passed, $failed failed"
[ "$failed" -eq 0 ]
