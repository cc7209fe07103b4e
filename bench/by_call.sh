#!/bin/bash
# by_call.sh PROGRAM
# Runs PROGRAM with four workers on the same 32 proofs of 1.9 MB in one file by calls with other
# words, and with one worker, too, and says how much memory each took. The status is 1 if a report
# isn't that all is refuted, or if a call took more than 1.2 times the memory of the plain one.
# What is made is in TMPDIR (/tmp), 250 MB, and removed.
set -eu
program=$(realpath "${1:?a program}")
cd "$(dirname "$0")"
if [ ! -x bin/measure ]; then
    mkdir -p bin
    gcc -O2 -o bin/measure tools/measure.c
fi
folder=$(mktemp -d)
trap 'rm -rf "$folder"' EXIT
python3 tools/large_folder.py "$folder" 0.06 32

# The sections of these leaves.
sections() {
    for number in "$@"; do
        echo "l $number"
        cat "$folder/proofs/$number.lrat"
    done
}
leaves=$(seq 32)
sections $leaves > "$folder/sections"
cat "$folder/case.icnf" "$folder/sections" > "$folder/bundle"
# The last two leaves by a proof for the node above them, whose path has a literal less.
{
    cat "$folder/case.icnf"
    sections $(seq 30)
    awk '/^a / {last = $0} END {sub(/^a/, "n", last); sub(/ -?[0-9]+ 0$/, " 0", last); print "l " last}' "$folder/case.icnf"
    python3 -c 'import sys; sys.path.insert(0, "tools"); import large_folder as made; made.write_proof(sys.stdout, len(made.CORE) + 5, 1_900_000, False)'
} > "$folder/inner"
# The folder once more, with the last proof behind a label line in the file before.
cp -r "$folder/proofs" "$folder/labelled"
{ echo 'l 32' && cat "$folder/proofs/32.lrat"; } >> "$folder/labelled/31.lrat"
rm "$folder/labelled/32.lrat"
# The same formula as a DIMACS text, and the rest of the bundle.
{
    echo "p cnf $(grep -v '^[ap]' "$folder/case.icnf" | tr ' -' '\n\n' | sort -n | tail -n 1) $(grep -c -v '^[ap]' "$folder/case.icnf")"
    grep -v '^[ap]' "$folder/case.icnf"
} > "$folder/formula.cnf"
{
    grep '^a' "$folder/case.icnf"
    cat "$folder/sections"
} > "$folder/cubes"

failed=0
plain=0
# A run on these words, which is named so.
measure() {
    name=$1
    shift
    read -r wall processor kilobytes status <<< "$(bin/measure -i "$folder/out" "$program" --workers "${workers:-4}" "$@")"
    [ "$plain" -ne 0 ] || plain=$kilobytes
    echo "$name: $((kilobytes * 1024 / 100000 / 10)).$((kilobytes * 1024 / 100000 % 10)) MB, $((processor / 1000)) ms of processor time"
    if [ "$status" -ne 0 ] || [ "$(tail -n 1 "$folder/out")" != "s REFUTED" ]; then
        echo "$name: not all is refuted (status $status)"
        failed=1
    fi
    if [ $((kilobytes * 10)) -gt $((plain * 12)) ]; then
        echo "$name: more than 1.2 times the plain call's memory"
        failed=1
    fi
}
measure "FILE" "$folder/bundle"
measure "FILE with --record" --record "$folder/record" "$folder/bundle"
measure "FILE with --formula" --formula "$folder/formula.cnf" "$folder/cubes"
measure "FILE with --formula and --record" --formula "$folder/formula.cnf" --record "$folder/record" "$folder/cubes"
measure "FILE with --map, --log and --record" --map "$folder/map" --log "$folder/log" --record "$folder/record" "$folder/bundle"
measure "FILE with a proof for an inner node" "$folder/inner"
measure "--proofs DIR" --proofs "$folder/proofs" "$folder/case.icnf"
measure "--proofs DIR with a label line in a file" --proofs "$folder/labelled" "$folder/case.icnf"
measure "standard input" < <(cat "$folder/bundle")
measure "standard input with --formula" --formula "$folder/formula.cnf" < <(cat "$folder/cubes")
workers=1 measure "FILE, one worker" "$folder/bundle"
workers=1 measure "standard input, one worker" < <(cat "$folder/bundle")
measure "FILE as a named pipe" <(cat "$folder/bundle")
measure "FILE with --explain" --explain "$folder/bundle" 2> /dev/null
exit "$failed"
