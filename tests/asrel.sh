#!/usr/bin/env bash
# The assert lines that examples/asrel.py makes of AS relationships: tests/asrel.py has files by hand and draws others. The last line is
# 'N passed, M failed', and the status is 0 where none failed. Without python3 nothing is tested.
set -u
cd "$(dirname "$0")/.." || exit
. tests/by_python.bash
by_python tests/asrel.py
