#!/bin/bash
# large_folder.sh PROGRAM [GIGABYTES=2] [PROOFS=4096] [rising]
# Runs PROGRAM with four workers on a folder of so many proofs, a power of two, that are so many
# gigabytes in all, then on one bundle of the same proofs in a file, and on that bundle through a pipe,
# with four workers and with one, and says how much memory each took; on one proof also by `--formula`
# and `--proof`, from a file and through a pipe. With `rising` the ids of a proof rise, beside old
# clauses that stay. The status is 1 if a run took more than 16 MB and a thousand bytes for each leaf,
# or more than 64 MB with four workers through a pipe, or if a report isn't that all leaves are refuted.
# What is made is in TMPDIR (/tmp), where there has to be room for twice the proofs, and removed.
set -eu
program=$(realpath "${1:?a program}")
gigabytes=${2:-2}
proofs=${3:-4096}
ids=${4:-}
cd "$(dirname "$0")"

within() { awk -v a="$1" -v b="$2" 'BEGIN {exit !(a <= b)}'; } # whether a number is at most another
room=$(df --output=avail -B1 "${TMPDIR:-/tmp}" | tail -n 1)
if ! within "$gigabytes" "$(awk -v room="$room" 'BEGIN {print room / 2.4e9}')"; then
    echo "large_folder.sh: no room for twice $gigabytes GB in ${TMPDIR:-/tmp}" >&2
    exit 1
fi
mkdir -p bin
gcc -O2 -o bin/measure tools/measure.c
folder=$(mktemp -d)
trap 'rm -rf "$folder"' EXIT

python3 tools/large_folder.py "$folder" "$gigabytes" "$proofs" $ids
bytes=$(find "$folder/proofs" -name '*.lrat' -printf '%s\n' | awk '{n += $1} END {printf "%.0f", n}')
limit=$(awk -v proofs="$proofs" 'BEGIN {printf "%.0f", 16 + proofs / 1000}')
failed=0

# A run on these words, which is named so, with what comes by standard input.
measure() {
    name=$1
    shift
    told=$(bin/measure -i "$folder/out" "$program" --workers "${workers:-4}" "$@")
    read -r wall processor kilobytes status <<< "$told"
    awk -v name="$name" -v bytes="$bytes" -v proofs="$proofs" -v wall="$wall" -v processor="$processor" -v kilobytes="$kilobytes" 'BEGIN {
        printf "%s of %d proofs, %.3f GB: %.2f s, %.2f s of processor time, %.1f MB in memory\n",
            name, proofs, bytes / 1e9, wall / 1e9, processor / 1e6, kilobytes * 1024 / 1e6
    }'
    if [ "$status" -ne 0 ] || ! cmp -s "$folder/report" "$folder/out"; then
        echo "the report isn't that all leaves are refuted (status $status)"
        failed=1
    fi
    if within "$(awk -v kilobytes="$kilobytes" 'BEGIN {print kilobytes * 1024 / 1e6}')" "$limit"; then
        echo "within $limit MB"
    else
        echo "more than $limit MB"
        failed=1
    fi
}

measure "a folder" --proofs "$folder/proofs" "$folder/case.icnf" < /dev/null
{
    cat "$folder/case.icnf"
    for number in $(seq "$proofs"); do
        echo "l $number"
        cat "$folder/proofs/$number.lrat"
    done
} > "$folder/bundle.icnf"
limit=64 measure "a file" "$folder/bundle.icnf" < /dev/null
limit=64 measure "standard input" < <(cat "$folder/bundle.icnf")
workers=1 measure "standard input, one worker," < <(cat "$folder/bundle.icnf")
if [ "$proofs" -eq 1 ]; then
    awk '/^[ap]/ {next}
        {text = text $0 "\n"; ++clauses; for (i = 1; i < NF; ++i) {v = $i < 0 ? -$i : $i; if (v > most) most = v}}
        END {printf "p cnf %d %d\n%s", most, clauses, text}' "$folder/case.icnf" > "$folder/formula.cnf"
    measure "--proof" --formula "$folder/formula.cnf" --proof "$folder/proofs/1.lrat" < /dev/null
    # (not in the last part of a pipe, where what has failed would be forgotten)
    measure "--proof -" --formula "$folder/formula.cnf" --proof - < <(cat "$folder/proofs/1.lrat")
fi
exit "$failed"
