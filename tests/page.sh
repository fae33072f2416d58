#!/usr/bin/env bash
# The page that examples/page.py makes of a run: tests/page.py looks at it, of the examples, of hostile words and of drawn routes. The last line is
# 'N passed, M failed', and the status is 0 where none failed. Without python3 nothing is tested.
set -u
cd "$(dirname "$0")/.." || exit
. tests/by_python.bash
by_python tests/page.py
