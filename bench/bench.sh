#!/bin/bash
# bench.sh PROGRAM [smoke|medium|hostile|FILE]...     without names: smoke and medium
# Runs PROGRAM and the anchor in turn on the bundles and compares their reports. README.md says what the numbers are.
# RUNS=N runs of each (5); WORKERS="1 2 4" gives both the option --workers with each number (1); ANCHOR=PROGRAM takes another anchor.
# Names of files are taken from the caller's folder. The status is 1 where reports differ.
set -eu
program=$(realpath "${1:?a program}")
shift
here=$(cd "$(dirname "$0")" && pwd)
names=()
for name in "$@"; do
    if [ -f "$name" ]; then name=$(realpath "$name"); fi
    names+=("$name")
done
cd "$here"
exec python3 tools/bench.py "$program" "${names[@]}"
