#!/bin/bash
# make_corpus.sh [smoke|medium|all|cuts|hostile]      builds the tools into bin/ and the bundles into corpus/, one after another.
# Needs cadical, python3, rustc and gcc. A bundle that is there is kept; remove it to make it again.
set -eu
cd "$(dirname "$0")"
mkdir -p bin corpus/smoke corpus/medium

build() { # TOOL SOURCE COMMAND..: where a source in its folder is newer
    if [ -z "$(find "bin/$1" -newer "$2" 2> /dev/null)" ] || [ -n "$(find "${2%/*}" -newer "bin/$1" -name '*.rs')" ]; then
        "${@:3}" -o "bin/$1" "$2"
    fi
}
build measure tools/measure.c gcc -O2
build cubesplit ../examples/split/cubesplit.rs rustc -O --edition 2024
build drat2lrat tools/drat2lrat.rs rustc -O --edition 2024
build anchor anchor/main.rs rustc -O --edition 2024

gen() { python3 tools/gen.py "$@"; }
split() { # FORMULA LEAVES
    gen $1 > corpus/formula.cnf
    bin/cubesplit corpus/formula.cnf "$2" > corpus/cubes
}
corpus() { # SET NAME LEAVES FORMULA OPTIONS..
    local out=corpus/$1/$2.icnf
    if [ -s "$out" ]; then return; fi
    echo "making $out"
    split "$4" "$3"
    python3 tools/bundle.py corpus/new.icnf corpus/formula.cnf corpus/cubes "${@:5}"
    mv corpus/new.icnf "$out"
}
resolution() { gen php_er "$1" > corpus/resolution.drat; }

smoke() {
    corpus smoke php6 16 "php 6"
    corpus smoke php6-trim 16 "php 6" --trim
    resolution 5
    corpus smoke php5-er 8 "php 5" --drat corpus/resolution.drat
    corpus smoke tseitin10 16 "tseitin 10 4 1" --trim
    corpus smoke schur14 16 "schur 14 3" --trim --renumber
    corpus smoke vdw32-deep 64 "vdw2 32 3 6" --shuffle 3
    corpus smoke rand3-90 16 "rand3 90 420 3"
    corpus smoke sparse 8 "sparse 60 290 150 210 1" --pure
    corpus smoke sparse-trim 8 "sparse 60 290 150 210 2" --pure --trim
    corpus smoke sparse-lead 8 "sparse 60 290 150 210 3" --pure --lead
    corpus smoke mul4 16 "miter_mul 4" --trim --renumber
    corpus smoke bmc4 16 "bmc 4 6 6 1" --trim
    corpus smoke squares 32 "squares 120 1009"
    # what stays open: cubes without a proof, branches without a cube, leaves that have a model
    corpus smoke open-noproof 16 "php 6" --noproof 3,7,8
    corpus smoke open-missing 32 "vdw2 32 3 6" --drop 5,6,19 --trim
    corpus smoke open-sat 16 "rand3 60 240 8"
    if [ ! -d corpus/smoke/folder ]; then
        split "php 6" 16
        mkdir corpus/smoke/folder
        python3 tools/bundle.py corpus/smoke/folder/case.icnf corpus/formula.cnf corpus/cubes \
            --folder corpus/smoke/folder/proofs --noproof 4
    fi
    python3 tools/stride.py corpus/smoke/php6.icnf corpus/smoke/php6-stride.icnf 997
    python3 tools/stride.py corpus/smoke/sparse.icnf corpus/smoke/sparse-far.icnf 1000003 4611686015000000000
    python3 tools/spoil.py corpus/smoke/php6.icnf corpus/smoke/sparse.icnf corpus/smoke/sparse-lead.icnf
}

medium() {
    corpus medium php9 32 "php 9"
    corpus medium tseitin25-trim 64 "tseitin 25 4 1" --trim
    corpus medium mul8-trim 56 "miter_mul 8" --trim
    corpus medium add24 16 "miter_add 24 4 4"
    # cube 3 has a model: it stays open
    corpus medium rand3-260-sat 128 "rand3 260 1140 5" --trim --renumber
    corpus medium bmc-wide 32 "bmc 3 30 60 1"
    corpus medium vdw97 64 "vdw2 97 3 10"
    corpus medium vdw97-4096 4096 "vdw2 97 3 10" --trim --renumber
    corpus medium sparse-rat 256 "sparse 200 900 4000 5500 1" --pure
    resolution 20
    corpus medium php20-er 16 "php 20" --drat corpus/resolution.drat
    if [ ! -s corpus/medium/php9-stride.icnf ]; then
        python3 tools/stride.py corpus/medium/php9.icnf corpus/medium/php9-stride.icnf 997
    fi
    if [ ! -d corpus/medium/folder ]; then
        split "php 9" 256
        mkdir corpus/medium/folder
        python3 tools/bundle.py corpus/medium/folder/case.icnf corpus/formula.cnf corpus/cubes --trim \
            --folder corpus/medium/folder/proofs
    fi
}

# the same formulas and cubes, of which the first ones alone have proofs
cuts() {
    mkdir -p corpus/cuts
    corpus cuts php9 32 "php 9" --first 2
    corpus cuts tseitin25-trim 64 "tseitin 25 4 1" --trim --first 2
    corpus cuts mul8-trim 56 "miter_mul 8" --trim --first 5
    corpus cuts vdw97 64 "vdw2 97 3 10" --first 2
    corpus cuts sparse-rat 256 "sparse 200 900 4000 5500 1" --pure --first 12
    resolution 20
    corpus cuts php20-er 16 "php 20" --drat corpus/resolution.drat --first 1
}

hostile() {
    mkdir -p corpus/hostile
    python3 tools/hostile.py corpus/hostile
}

case "${1:-smoke}" in
    smoke) smoke ;;
    medium) medium ;;
    all)
        smoke
        medium
        ;;
    cuts) cuts ;;
    hostile) hostile ;;
    *) echo "make_corpus.sh [smoke|medium|all|cuts|hostile]" >&2 && exit 2 ;;
esac
rm -f corpus/formula.cnf corpus/cubes corpus/resolution.drat corpus/new.icnf
du -sh corpus/*/
