#!/bin/bash
# count.sh PROGRAM [cuts|hostile|FILE]...     without names: cuts
# Counts by callgrind the instructions of PROGRAM and of the anchor with one worker, and the
# branches foreseen badly; of hostile bundles those of PROGRAM alone. README.md has the columns.
# ANCHOR=PROGRAM takes another anchor. The status is 1 if reports differ.
set -eu
program=$(realpath "${1:?a program}")
shift
here=$(cd "$(dirname "$0")" && pwd)
names=()
for name in "$@"; do
    if [ -f "$name" ]; then name=$(realpath "$name"); fi
    names+=("$name")
done
cd "$here"
exec python3 tools/count.py "$program" "${names[@]}"
