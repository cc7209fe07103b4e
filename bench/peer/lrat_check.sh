#!/bin/sh
# lrat_check.sh [PROGRAM [PART..]]      compares a program with lrat-check, the checker that comes
# with drat-trim. Without words: the built cubeboard, and all parts:
# - cases: what lrat-check accepts though it is wrong, by the page cases/README.md;
# - spoiled: verdicts on spoiled proofs, each difference in a class;
# - leaves: times and memory on leaves of 1, 10 and 100 MB, and on one with RAT steps;
# - run: the same on a run of 256 leaves, lrat-check once a leaf.
# lrat-check, drat-trim and a cadical that has --lrat are taken from the folder PEERS, from
# bench/bin/debian/bin, which unpack.sh makes, or from the PATH. What isn't there is named, and what
# needs it skipped. The status is 1 if a case or a verdict isn't as it should be.
set -eu
export PYTHONDONTWRITEBYTECODE=1
here=$(CDPATH= cd -- "$(dirname -- "$0")" && pwd)
bench=$(dirname -- "$here")
bin=$bench/bin
work=$bench/corpus/lrat
. "$here/lrat_proofs.sh"
program=$(realpath -m "${1:-$bench/../crates/cubeboard/out/cubeboard}")
[ $# -eq 0 ] || shift
[ $# -gt 0 ] || set -- cases spoiled leaves run
PATH=$bin/debian/bin:$PATH
[ -z "${PEERS:-}" ] || PATH=$(realpath -m "$PEERS"):$PATH
export PATH

skip() {
    echo "lrat_check.sh: $1: skipped: $2"
}

cases() {
    python3 "$here/lrat_cases.py" "$program"
}

spoiled() {
    rm -rf "$work/spoiled"
    mkdir -p "$work/spoiled/work"
    ! needs cadical "proofs of a solver" || solved_proofs "$work/spoiled"
    ! needs drat-trim "proofs by drat-trim" || resolved_proofs "$work/spoiled" drat-trim 3 4 5
    if needs rustc "proofs by drat2lrat"; then
        tool drat2lrat "$bench/tools"
        resolved_proofs "$work/spoiled" drat2lrat 3 4 5
    fi
    [ -n "$(find "$work/spoiled" -name '*.lrat')" ] || return 0
    python3 "$here/lrat_spoiled.py" "$program" "$work/spoiled" 1 2
}

leaves() {
    if needs cadical "the leaves of 1, 10 and 100 MB"; then
        solved_leaf tseitin20 tseitin 20 4 1
        solved_leaf vdw97 vdw2 97 3 10
        solved_leaf rand300 rand3 300 1350 1
    fi
    if needs rustc "the leaf with RAT steps"; then
        tool drat2lrat "$bench/tools"
        resolved_leaf php30-er drat2lrat 30
    fi
    set --
    for leaf in tseitin20 vdw97 rand300 php30-er; do
        [ ! -f "$work/leaves/$leaf/proofs/1.lrat" ] || set -- "$@" "$work/leaves/$leaf"
    done
    [ $# -gt 0 ] || return 0
    python3 "$here/lrat_time.py" "$program" "$here/cases/cubes" "$@"
}

run() {
    needs cadical "a run of leaves" && needs rustc "a run of leaves" || return 0
    tool cubesplit "$bench/../examples/split"
    solved_run 256 vdw2 97 3 10
    python3 "$here/lrat_run.py" "$program" "$work/run"
}

needs lrat-check "all of it" || exit 0
[ -x "$program" ] || { skip "all of it" "there is no program $program" && exit 0; }
mkdir -p "$bin"
if [ ! -x "$bin/measure" ]; then
    needs gcc "all of it" || exit 0
    gcc -O2 -o "$bin/measure" "$bench/tools/measure.c"
fi
echo "$program beside $(command -v lrat-check)"
failed=0
for part in "$@"; do
    echo "$part:"
    case $part in
        cases | spoiled | leaves | run) ;;
        *) echo "lrat_check.sh: there is no part $part" && exit 2 ;;
    esac
    set +e
    (set -e; "$part")
    [ $? -eq 0 ] || failed=1
    set -e
done
exit "$failed"
