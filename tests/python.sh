#!/usr/bin/env bash
# The Python package in python/ and examples/watch.py, with the built program: the package's tests, the examples of docs/python.md, and its
# types where mypy is there. The last line is 'N passed, M failed', and the status is 0 where none failed. Without python3 nothing is tested.
set -u
cd "$(dirname "$0")/.." || exit
. tests/by_python.bash
by_python tests/python.py
