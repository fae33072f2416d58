#!/usr/bin/env bash
# The states of origins that the built program lists, beside those of plain lists: tests/origins.py draws routes and records.
# The last line is 'N passed, M failed', and the status is 0 where none failed. Without python3 nothing is tested.
set -u
cd "$(dirname "$0")/.." || exit
. tests/by_python.bash
by_python tests/origins.py
