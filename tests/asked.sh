#!/usr/bin/env bash
# What people ask of the built program, beside plain lists, and laws between the texts of its commands: tests/asked.py draws small tables and asks.
# The last line is 'N passed, M failed', and the status is 0 where none failed. Without python3 nothing is tested.
set -u
cd "$(dirname "$0")/.." || exit
. tests/by_python.bash
by_python tests/asked.py
