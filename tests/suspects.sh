#!/usr/bin/env bash
# The suspects and the details that the built program lists, beside those of a plain computation, and dumps cut into hours: tests/suspects.py
# draws attestations and paths. The last line is 'N passed, M failed', and the status is 0 where none failed. Without python3 nothing is tested.
set -u
cd "$(dirname "$0")/.." || exit
. tests/by_python.bash
by_python tests/suspects.py
