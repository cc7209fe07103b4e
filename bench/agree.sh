#!/bin/bash
# agree.sh PROGRAM [RUNS [SEED]]
# Tries the anchor on the rows and the examples, and beside PROGRAM on random bundles: RUNS (1000)
# and a quarter as many. README.md says what is compared. The status is 1 if an answer is wrong.
set -eu
here=$(cd "$(dirname "$0")" && pwd)
exec python3 "$here/tools/agree.py" "$@"
