#!/usr/bin/env bash
# What questions cost as what they go over and print grows: tests/asked_costs.py measures it and prints the figures.
# The last line is 'N passed, M failed', and the status is 0 where none failed. Without python3 nothing is tested.
set -u
cd "$(dirname "$0")/.." || exit
. tests/by_python.bash
by_python tests/asked_costs.py
