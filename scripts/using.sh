#!/bin/sh
# Runs the commands of docs/USING.md, its indented lines, from top to bottom in an empty folder,
# and looks whether what the page says of them holds: of the page's example, and from the bundle
# on of a formula that isn't split, five pigeons in four holes with one empty cube; and of the
# example with cubes left out, whose leaves are then solved by examples/solve_leaf.sh, too. First
# without a solver, up to the report without proofs, and the check of an example whose proofs are
# there; the page's splitter, if there is a Rust compiler; then each way of the page to solve a
# leaf where there is what it needs: `cadical` with `--lrat`; any `cadical` and a Rust compiler
# for bench/tools/drat2lrat.rs, or drat-trim; `cryptominisat5` and that compiler. The others are
# skipped, also where CI is set: the script isn't part of `./check`. The page's run over many
# machines is tried by its plain loop where its solve.sh has what it needs; its other engines are
# those of examples/cluster, which scripts/cluster.sh tries, by the same commands. The last line
# counts.
root=$(CDPATH= cd -- "$(dirname -- "$0")/.." && pwd) || exit 1
. "$root/scripts/runs.sh"

# Whether `cadical` takes the page's options and refutes two units.
takes_lrat() {
    printf 'p cnf 1 2\n1 0\n-1 0\n' > "$here/units.cnf"
    cadical -q --lrat --no-binary "$here/units.cnf" "$here/units.lrat" > /dev/null 2>&1
    [ $? -eq 20 ] && [ -s "$here/units.lrat" ]
}

# Runs one of the page's blocks in this shell and in the folder that it is in: the number of its part, and which one of that part.
block() {
    . "$here/page/$1" > "$here/out" 2> "$here/err"
    status=$?
    echo "$status" > "$here/status"
}

# The bundle and the report without proofs, with the formula and the cubes there: whose they are, and how many cubes.
to_the_bundle() {
    block 3.1
    [ "$status" -eq 1 ] && grep -q "^t $2 0 " "$here/out" && grep -q '^o 0$' "$here/out" && [ ! -s "$here/err" ]
    count "$1: the status is 1 and the root is open before there are proofs" $?
    cp "$here/out" "$here/of_bundle"
    block 3.2
    [ "$status" -eq 1 ] && cmp -s "$here/out" "$here/of_bundle" && [ ! -s "$here/err" ]
    count "$1: the report is the same where the formula stays in its file" $?
}

# The check of the bundle and its folder of proofs: whose they are.
check() {
    block 5.1
    [ "$(tail -n 2 "$here/out" | tr '\n' ' ')" = "s REFUTED 0 " ] && [ ! -s "$here/err" ]
    count "$1: the last line is s REFUTED and the status 0 with the folder of proofs" $?
    block 5.2
    [ "$status" -eq 0 ] && [ "$(tail -n 1 "$here/out")" = "s REFUTED" ] && [ ! -s "$here/err" ]
    count "$1: so they are with the bundle" $?
    block 5.5
    [ "$status" -eq 0 ] && [ "$(head -n 1 case.record)" = "i $(sha256sum < case.icnf | cut -c1-64)" ] && tail -n +2 case.record | cmp -s - "$here/out" && [ ! -s "$here/err" ]
    count "$1: the record has the checksum of the bundle's file, and the report" $?
}

# Whether the last block has told of so many leaves of a kind that the solver refutes them, and has printed nothing else: the kind, and how many.
are_solved() {
    [ "$(grep -c "^$1 [0-9]*: status 20\$" "$here/out")" -eq "$2" ] && [ "$(wc -l < "$here/out")" -eq "$2" ] && [ ! -s "$here/err" ]
}

# From the bundle to the check, with the formula, its numbers and the cubes there: whose they are, how many cubes, and how many missing leaves.
from_the_bundle() {
    for step in 4.1 $way 4.3; do block "$step"; done
    are_solved cube "$2"
    count "$1: the solver refutes each cube" $?
    block 4.4
    are_solved "missing leaf" "$3" && [ "$(ls proofs | wc -l)" -eq "$(($2 + $3))" ]
    count "$1: the solver refutes each missing leaf" $?
    check "$1"
}

# The page from its third part on where cubes are left out, and then its leaves as so many calls of
# solve_leaf.sh, which leaves as many proofs where it goes the same way: who tries it.
left_out() {
    rm -rf "$here/left out"
    mkdir "$here/left out"
    cp formula.cnf "$here/left out/"
    [ ! -e drat2lrat ] || cp drat2lrat "$here/left out/"
    sed '3,4d; 9d' cubes > "$here/left out/cubes"
    cd "$here/left out" || exit 1
    block 3.1
    [ "$status" -eq 1 ] && grep -q '^t 13 2 ' "$here/out" && grep -q '^o 0$' "$here/out" && [ ! -s "$here/err" ]
    count "$1: two missing leaves are open" $?
    from_the_bundle "$1" 13 2
    if [ "$way" = "$way_of_a_leaf" ]; then
        mv proofs solved
        block 4.5
        # (from CaDiCaL 2 on it leaves the proofs binary, and the page's lines leave text)
        "$root/cubeboard" --proofs solved case.icnf > "$here/told_of_solved"
        [ "$status" -eq 0 ] && [ ! -s "$here/out" ] && [ ! -s "$here/err" ] &&
            [ "$(ls solved)" = "$(ls proofs)" ] &&
            "$root/cubeboard" --proofs proofs case.icnf | cmp -s - "$here/told_of_solved"
        count "$1: solve_leaf.sh leaves proofs of the same leaves, with the same report" $?
    fi
    cd "$here/example" || exit 1
}

# Five pigeons, each in one of four holes, and no two in one hole: variable 4 (P - 1) + H says that pigeon P is in hole H.
pigeons() {
    echo "p cnf 20 45"
    for first in 1 2 3 4 5; do
        echo "$((4 * first - 3)) $((4 * first - 2)) $((4 * first - 1)) $((4 * first)) 0"
        second=$((first + 1))
        while [ "$second" -le 5 ]; do
            for hole in 1 2 3 4; do echo "-$((4 * first - 4 + hole)) -$((4 * second - 4 + hole)) 0"; done
            second=$((second + 1))
        done
    done
}

# Whether a command is there: its name.
has() {
    command -v "$1" > /dev/null 2>&1
}

# The page up to the report without proofs, in a folder for the example and in one for the formula that isn't split: who tries it.
begin() {
    rm -rf "$here/example" "$here/unsplit"
    mkdir "$here/example" "$here/unsplit"
    cd "$here/unsplit" || exit 1
    pigeons > formula.cnf
    echo "a 0" > cubes
    to_the_bundle "$1: one empty cube" 1
    cd "$here/example" || exit 1
    block 1.1
    [ "$status" -eq 0 ] && [ ! -s "$here/err" ]
    count "$1: the example: the formula is there" $?
    block 2.1
    [ "$status" -eq 0 ] && [ ! -s "$here/err" ]
    count "$1: the example: the cubes are there" $?
    to_the_bundle "$1: the example" 16
}

# The run over many machines by the page's plain loop: who tries it.
many_machines() {
    block 8.2
    cd run || exit 1
    block 8.6
    [ "$status" -eq 0 ] && [ "$(ls -- *.record | wc -l)" -eq 16 ] && [ ! -s "$here/err" ] && "$root/cubeboard" --proofs ../proofs case.icnf | cmp -s - joined.report
    count "$1: the jobs' joined report is that of one run" $?
    rm 3.record
    "$root/cubejoin" case.icnf *.record > "$here/out" 2> "$here/err"
    [ $? -eq 1 ] && [ "$(grep '^o ' "$here/out")" = "o $(sed -n '3s/^a //p' ../cubes)" ] && [ ! -s "$here/err" ]
    count "$1: without a record its leaf is open" $?
    cd ..
}

# The example's formula through a pipe, and one that has a model: who tries it.
through_a_pipe() {
    block 8.1
    [ "$status" -eq 0 ] && [ "$(tail -n 3 "$here/out" | tr '\n' ' ')" = "a 1 refuted w 0 s REFUTED " ] && [ ! -s "$here/err" ]
    count "$1: its proof through a pipe" $?
    mv formula.cnf whole.cnf
    printf 'p cnf 2 2\n1 2 0\n-1 2 0\n' > formula.cnf
    block 8.1
    [ "$status" -eq 1 ] && grep -q '^a 1 rejected 1 unreadable$' "$here/out" && [ ! -s "$here/err" ]
    count "$1: a formula with a model, through a pipe" $?
    mv whole.cnf formula.cnf
}

# Yesterday's proofs and today's, in a folder with all of them: whose they are, and the report on all.
two_days() {
    mkdir today && mv proofs/1*.lrat today/
    "$root/cubeboard" --proofs proofs --record yesterday.record case.icnf > "$here/out" 2> "$here/err"
    [ $? -eq 1 ] && tail -n +2 yesterday.record | cmp -s - "$here/out" && [ ! -s "$here/err" ]
    count "$1: yesterday's report is open" $?
    "$root/cubejoin" case.icnf yesterday.record > "$here/joined" 2> "$here/err"
    [ $? -eq 1 ] && cmp -s "$here/joined" "$here/out" && [ ! -s "$here/err" ]
    count "$1: yesterday's record alone joins to its report" $?
    block 8.7
    [ "$status" -eq 0 ] && cmp -s "$here/out" "$2" && [ ! -s "$here/err" ]
    count "$1: yesterday's record and today's give the report on all proofs" $?
}

# The page from top to bottom by one of its ways to solve a leaf: the numbers of the blocks that it takes, and what it is.
try() {
    way=$1
    begin "$2"
    from_the_bundle "$2: the example" 16 0
    left_out "$2: the example with cubes left out"
    block 5.3
    [ "$status" -eq 0 ] && grep -q '^n 16 17 0 refuted$' "$here/out" && [ ! -s "$here/err" ]
    count "$2: the example: a proof for an inner node is accepted" $?
    block 5.4
    [ "$status" -eq 0 ] && [ "$(tail -n 1 "$here/out")" = "s REFUTED" ] && python3 "$root/scripts/draw.py" case.icnf "$here/out" | cmp -s - tree.svg \
        && tail -n 1 "$here/err" | grep -q -x 'cubeboard: 16 of 16 judged, \([0-9]*\) of \1 bytes, 16 refuted, 0 rejected, 0.000 % open'
    count "$2: the example: the last line of progress, and the picture" $?
    case $way in
        4.2 | "4.6 4.7") many_machines "$2: the example" ;;
    esac
    block 5.6
    [ "$status" -eq 0 ] && [ "$(tail -n 3 "$here/out" | tr '\n' ' ')" = "a 1 refuted w 0 s REFUTED " ] && [ ! -s "$here/err" ]
    count "$2: the example: one proof of the whole formula" $?
    [ "$way" != 4.2 ] || through_a_pipe "$2: the example"
    rm proofs/1.lrat proofs/2.lrat proofs/14.lrat
    echo 'garbage' > proofs/8.lrat
    block 6.1
    [ "$status" -eq 1 ] && grep -q '^a 8 rejected 1 unreadable$' "$here/out" && grep -q '^explain: .*proofs/8.lrat' "$here/err"
    count "$2: the example: what is told of a proof that is rejected" $?
    block 6.2
    [ "$status" -eq 1 ] && [ "$(tr '\n' ' ' < "$here/out")" = "1 2 8 14 " ] && [ ! -s "$here/err" ]
    count "$2: the example: the list of the leaves that are left" $?
    "$root/cubeboard" --proofs proofs case.icnf > report
    . "$here/labels" > labels
    [ "$(tr '\n' ',' < labels)" = "l n 16 17 15 0,l 8,l 14," ]
    count "$2: the example: the labels of the open branches" $?
    block 8.8
    [ "$status" -eq 0 ] && grep -q '^n 16 17 15 0 refuted$' "$here/out" && [ "$(tail -n 1 "$here/out")" = "s REFUTED" ] && [ ! -s "$here/err" ]
    count "$2: the example: what is left is refuted in the next run" $?
    cd "$here/unsplit" || exit 1
    variables=20
    clauses=45
    from_the_bundle "$2: one empty cube" 1 0
    [ "$(head -n 1 leaf.cnf)" = "p cnf 20 45" ] && cmp -s formula.cnf leaf.cnf
    count "$2: one empty cube: the solver's input is the formula" $?
}

build_program
build_join
# The page calls the launchers in the repository's folder: other programs that are tried stand in their place, in a folder of the same things.
if [ -n "${CUBEBOARD_PROGRAM:-}${CUBEJOIN_PROGRAM:-}" ]; then
    mkdir "$here/root"
    ln -s "$root"/* "$here/root/"
    [ -z "${CUBEBOARD_PROGRAM:-}" ] || ln -s -f "$program" "$here/root/cubeboard"
    [ -z "${CUBEJOIN_PROGRAM:-}" ] || ln -s -f "$join" "$here/root/cubejoin"
    root=$here/root
fi

cut_page "$root/docs/USING.md"
blocks=$(ls "$here/page" | tr '\n' ' ')
if [ "$blocks" != "1.1 2.1 2.2 3.1 3.2 4.1 4.2 4.3 4.4 4.5 4.6 4.7 4.8 4.9 5.1 5.2 5.3 5.4 5.5 5.6 6.1 6.2 8.1 8.2 8.3 8.4 8.5 8.6 8.7 8.8 " ]; then
    fail "the page has the blocks $blocks, which this script doesn't know"
    finish
fi

# The command of docs/FORMATS.md for the labels of open branches, the last one under "Questions to a report".
awk '
    /^## / { inside = 0; here = $0 == "## Questions to a report" }
    here && /^    / { block = (inside ? block : "") substr($0, 5) "\n"; inside = 1; next }
    /[^ ]/ { inside = 0 }
    END { printf "%s", block }
' "$root/docs/FORMATS.md" > "$here/labels"

begin "no solver"
cp -r "$root/examples/van-der-waerden-3-6" "$here/solved" && cd "$here/solved" && grep '^a ' case.icnf > cubes || exit 1
check "no solver: the folder van-der-waerden-3-6 of examples"
two_days "no solver: the folder van-der-waerden-3-6 of examples" "$root/examples/van-der-waerden-3-6.report"
sed -n 's/^    //p' "$root/examples/cluster/README.md" > "$here/commands"
for number in 3 4 5 6; do
    tr '\n' '~' < "$here/commands" | grep -q -F "$(tr '\n' '~' < "$here/page/8.$number")"
    count "the page's commands $number for many machines are those of examples/cluster" $?
done

# The page's splitter, whose cubes take the place of the page's own.
if has rustc; then
    begin "the splitter"
    block 2.2
    [ "$status" -eq 0 ] && [ ! -s "$here/out" ] && [ ! -s "$here/err" ]
    count "the splitter: it is compiled, and splits the example" $?
    to_the_bundle "the splitter: the example" 16
else
    skip "the splitter" "there is no Rust compiler"
fi

# The way that solve_leaf.sh goes.
way_of_a_leaf="4.6 4.7"
if takes_lrat; then
    way_of_a_leaf=4.2
    try 4.2 "cadical with --lrat"
else
    skip "cadical with --lrat" "there is no cadical that has it"
fi
if has cadical && has rustc; then
    try "4.6 4.7" "cadical and drat2lrat"
else
    skip "cadical and drat2lrat" "there isn't cadical and a Rust compiler"
fi
if has cadical && has drat-trim; then
    try 4.8 "cadical and drat-trim"
else
    skip "cadical and drat-trim" "they aren't both there"
fi
if has cryptominisat5 && has rustc; then
    try "4.6 4.9" "cryptominisat5 and drat2lrat"
else
    skip "cryptominisat5 and drat2lrat" "there isn't cryptominisat5 and a Rust compiler"
fi
finish
