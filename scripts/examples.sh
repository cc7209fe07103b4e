#!/bin/sh
# examples.sh [FOLDER]      makes the examples adders-6 and schur-14-3 from nothing, by the commands of docs/USING.md, in FOLDER, which
# is made; without it in a folder that is thrown away, and looks whether all bytes are those of examples/. It needs python3, a Rust
# compiler (1.85 or later) and `cadical`: with that of Debian 12, 1.5.3, the bytes are the same each time; where one isn't there, both are
# skipped. It isn't part of `./check`. The last line counts.
root=$(CDPATH= cd -- "$(dirname -- "$0")/.." && pwd) || exit 1
. "$root/scripts/runs.sh"
for tool in python3 rustc cadical; do
    if ! command -v "$tool" > /dev/null 2>&1; then
        skip "adders-6 and schur-14-3" "there is no $tool"
        finish
    fi
done
made=${1:-$here/examples}
mkdir -p "$made" && made=$(CDPATH= cd -- "$made" && pwd) || exit 1
for tool in examples/split/cubesplit bench/tools/drat2lrat; do
    rustc -O --edition 2024 -o "$here/${tool##*/}" "$root/$tool.rs" || exit 1
done

# The input of a solver: the formula with these literals as units at its end.
leaf() {
    {
        echo "p cnf $variables $((clauses + $#))"
        grep -v '^[cp]' formula.cnf
        for literal in "$@"; do echo "$literal 0"; done
    } > "$here/leaf.cnf"
}

# Writes the proof to a file where the solver, with these options, refutes the leaf.
solve() {
    proof=$1
    shift
    cadical -q "$@" "$here/leaf.cnf" "$here/leaf.drat" > "$here/log"
    [ $? -ne 20 ] || "$here/drat2lrat" make "$here/leaf.cnf" "$proof" "$here/leaf.drat" --trim
}

# The formula of a folder of this name, and as many cubes: the name, their number, and the words for bench/tools/gen.py.
begin() {
    mkdir -p "$made/$1/proofs" && cd "$made/$1" || exit 1
    number=$2
    shift 2
    python3 "$root/bench/tools/gen.py" "$@" > formula.cnf || exit 1
    variables=$(awk '/^p cnf/ {print $3}' formula.cnf)
    clauses=$(awk '/^p cnf/ {print $4}' formula.cnf)
    "$here/cubesplit" formula.cnf "$number" > cubes
}

# The bundle without proofs.
bundle() {
    { echo "p inccnf"; grep -v '^[cp]' formula.cnf; cat cubes; } > case.icnf
}

# A proof for each cube that the solver refutes with these options.
solve_cubes() {
    number=0
    grep '^a ' cubes | while read -r a literals; do
        number=$((number + 1))
        leaf ${literals%0}
        solve "proofs/$number.lrat" "$@"
    done
}

# Two words of six bits each, added up bit by bit and by carry-select in blocks of three: no bit of the sums differs.
begin adders-6 8 miter_add 6 3 2
bundle
solve_cubes

# The numbers 1 to 14, three colors, no sum of one color. The sixth cube is left out, as by a splitter that has refuted it by
# itself; no leaf gets more than 14 conflicts; two inner nodes get as many as they need.
begin schur-14-3 16 schur 14 3
sed 6d cubes > "$here/cubes" && mv "$here/cubes" cubes
bundle
solve_cubes -c 14
leaf -4 5 10 -1 17
solve proofs/m1.lrat -c 14
for path in "-4 5 10" "-4 -5 10"; do
    leaf $path
    solve "$here/node.lrat"
    { echo "l n $path 0"; cat "$here/node.lrat"; } >> case.icnf
done

[ $# -eq 0 ] || exit 0
for name in adders-6 schur-14-3; do
    diff -r "$root/examples/$name" "$made/$name" > "$here/diff"
    same=$?
    head -n 1 "$here/diff"
    count "$name has the same bytes" "$same"
done
finish
