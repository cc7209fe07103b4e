#!/bin/sh
# peer.sh [PROGRAM [BUNDLE..]]      compares a program with ACL2's LRAT checker, which is proved sound, on one leaf of each bundle: times,
# memory, and verdicts on spoiled proofs. Without words: the built cubeboard, and bundles of bench/corpus/medium.
# README.md says what it needs; without `acl2` and its books, or without bundles, it says so and skips.
set -eu
export PYTHONDONTWRITEBYTECODE=1
here=$(CDPATH= cd -- "$(dirname -- "$0")" && pwd)
bench=$(dirname -- "$here")
program=$(realpath -m "${1:-$bench/../crates/cubeboard/out/cubeboard}")
[ $# -eq 0 ] || shift

skip() {
    echo "peer.sh: skipped: $1"
    exit 0
}
command -v acl2 > /dev/null || skip "there is no acl2 here (Debian: acl2, acl2-books)"
[ -x "$program" ] || skip "there is no program $program"
if [ $# -eq 0 ]; then
    for name in php9 mul8-trim tseitin25-trim vdw97 bmc-wide add24 sparse-rat php20-er; do
        if [ -f "$bench/corpus/medium/$name.icnf" ]; then set -- "$@" "$bench/corpus/medium/$name.icnf"; fi
    done
    [ $# -gt 0 ] || skip "there are no bundles: bash bench/make_corpus.sh medium"
fi

mkdir -p "$bench/bin" "$bench/corpus/leaves"
[ -x "$bench/bin/measure" ] || gcc -O2 -o "$bench/bin/measure" "$bench/tools/measure.c"
if [ ! -x "$bench/bin/acl2-lrat" ]; then
    (cd "$bench/bin" && acl2 < "$here/image.lisp" > acl2-lrat.log 2>&1)
    if grep -q "ACL2 Error" "$bench/bin/acl2-lrat.log"; then
        rm -f "$bench/bin/acl2-lrat" "$bench/bin"/acl2-lrat.[!l]*
        skip "acl2 has no books of its LRAT checkers (Debian: acl2-books)"
    fi
fi

leaves=
for bundle in "$@"; do
    leaf=$bench/corpus/leaves/$(basename "$bundle" .icnf)
    [ -f "$leaf.clrat" ] || python3 "$here/leaf.py" "$bundle" "$leaf" > /dev/null
    leaves="$leaves $leaf"
done
# No name has a blank, but where the repository's folder has one.
python3 "$here/peer_time.py" "$program" $leaves
for name in tseitin25-trim sparse-rat bmc-wide; do
    leaf=$bench/corpus/leaves/$name
    [ ! -f "$leaf.clrat" ] || python3 "$here/spoil_both.py" "$program" "$leaf" 1 2
done
