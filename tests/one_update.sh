#!/usr/bin/env bash
# Messages with a very long path and many prefixes, against as many bytes with a short path: tests/one_update.py does it and prints the figures.
# The last line is 'N passed, M failed', and the status is 0 where none failed. Without python3 nothing is tested.
set -u
cd "$(dirname "$0")/.." || exit
. tests/by_python.bash
by_python tests/one_update.py
