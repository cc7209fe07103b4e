#!/bin/bash
# piped.sh PROGRAM
# Solves three formulas by CaDiCaL and checks the proofs by PROGRAM, and prints rows of a table of
# docs/PERFORMANCE.md: seconds of wall time of the solver alone, of the solver with a file that
# PROGRAM reads then, and of the solver with a pipe into PROGRAM; and of PROGRAM behind that pipe
# seconds of processor time and peak memory. Times are the least of RUNS=3 runs, memory the greatest.
# The status is 1 if a report isn't that the formula is refuted.
# It needs `gcc`, `python3` and a `cadical` of version 2 or above: that of the folder that the
# variable PEERS names, of bench/bin/debian/bin (bench/peer/unpack.sh), or of the PATH.
# What is made is in TMPDIR (/tmp), 60 MB, and removed.
set -eu
program=$(realpath "${1:?a program}")
cd "$(dirname "$0")"
PATH=${PEERS:-$PWD/bin/debian/bin}:$PATH
mkdir -p bin
gcc -O2 -o bin/measure tools/measure.c
folder=$(mktemp -d)
trap 'rm -rf "$folder"' EXIT
failed=0

# A command for the table's next column, and the seconds that it takes.
least() {
    best=
    for _ in $(seq "${RUNS:-3}"); do
        begin=$(date +%s%N)
        "$1"
        ns=$(($(date +%s%N) - begin))
        [ -n "$best" ] && [ "$best" -le "$ns" ] || best=$ns
    done
    awk -v ns="$best" 'BEGIN { printf " %.2f |", ns / 1e9 }'
}
# CaDiCaL ends with 20 if the formula has no model.
solve() { cadical -q --lrat $form "$folder/formula.cnf" "$1" || [ $? -eq 20 ]; }
alone() { solve - > /dev/null; }
by_file() {
    solve "$folder/proof.lrat" > /dev/null
    "$program" --formula "$folder/formula.cnf" --proof "$folder/proof.lrat" > "$folder/out" || :
    is_refuted
}
by_pipe() {
    solve - | bin/measure -i "$folder/out" "$program" --formula "$folder/formula.cnf" --proof - \
        > "$folder/used"
    is_refuted
    cat "$folder/used" >> "$folder/all"
}
is_refuted() {
    [ "$(tail -n 1 "$folder/out")" = "s REFUTED" ] && return
    echo "$formula: the report isn't that it is refuted" >&2
    failed=1
}

echo "cadical $(cadical --version)" >&2
printf '| %s ' Formula Proof MB "Solver alone, s" "File, then the check, s" "Pipe into the check, s" \
    "Check behind the pipe, processor s" "Its peak MB"
echo "|"
echo "|---|---|---|---|---|---|---|---|"
while read -r formula; do
    python3 tools/gen.py $formula > "$folder/formula.cnf"
    for form in --binary --no-binary; do
        : > "$folder/all"
        solve "$folder/proof.lrat" > /dev/null
        bytes=$(wc -c < "$folder/proof.lrat")
        printf '| %s | %s | %s |' "$formula" "$([ "$form" = --binary ] && echo binary || echo text)" \
            "$(awk -v bytes="$bytes" 'BEGIN { printf "%.1f", bytes / 1e6 }')"
        for way in alone by_file by_pipe; do least "$way"; done
        awk 'NR == 1 || $2 < processor { processor = $2 }
            $3 > kilobytes { kilobytes = $3 }
            END { printf " %.2f | %.1f |\n", processor / 1e6, kilobytes * 1024 / 1e6 }' "$folder/all"
    done
done << 'FORMULAS'
php 9
miter_add 24 3 8
rand3 230 1020 5
FORMULAS
exit "$failed"
