#!/bin/sh
# Tries examples/published: the pentagon from its formula to the answer, by run.sh; also as with a
# CaDiCaL that writes no LRAT; and what run.sh says if something is missing. Then the formulas, by
# theorems that are known: the solver refutes each, and finds a model of the one with a number or a
# point less. The commands of the page's part "Checked besides" are run as they are.
#
# It needs python3, a Rust compiler and `cadical`, and isn't part of `./check`. So
# scripts/false_programs.sh, which is, must not find it: its calls of `build_program` and
# `build_join` are indented. The last line counts.
root=$(CDPATH= cd -- "$(dirname -- "$0")/.." && pwd) || exit 1
. "$root/scripts/runs.sh"
for tool in python3 rustc cadical; do
    if ! command -v "$tool" > /dev/null 2>&1; then
        skip "examples/published" "there is no $tool"
        finish
    fi
done

# The programs, and the environment of the runs.
begin() {
    build_program
    build_join
    CUBEBOARD=$program
    CUBEJOIN=$join
    export CUBEBOARD CUBEJOIN
    unset KEEP DRAT2LRAT PROCESSES SECONDS_A_LEAF
}

published=$root/examples/published
folder=$here/run/pentagon
solver=$(command -v cadical)

# Calls run.sh.
published() {
    note "$here/none" sh "$published/run.sh" "$@"
}

# Whether the last run refutes the pentagon's formula, from 16 cubes, and has solved each once.
is_refuted() {
    [ "$(cat "$here/status")" -eq 0 ] && [ ! -s "$here/err" ] &&
        [ "$(tail -n 1 "$here/out")" = "joined.report: 16 cubes, s REFUTED, status 0" ] &&
        grep -q '^16 leaves solved, ' "$here/out" &&
        [ "$(tail -n 1 "$folder/joined.report")" = "s REFUTED" ] &&
        [ "$(grep -c '^a .* refuted$' "$folder/joined.report")" -eq 16 ]
}

# The run, the same call again, and its records.
whole_run() {
    published pentagon
    is_refuted
    count "the pentagon is refuted" $?
    [ "$(ls "$folder/run" | grep -c 'record$')" -eq 4 ] && [ -z "$(find "$folder" -name '*.lrat')" ]
    count "four jobs leave their records, and no proof stays" $?
    published pentagon
    is_refuted
    count "called again it solves nothing anew" $?
    cd "$folder" || exit 1
    "$program" --record own.record --formula formula.cnf cubes > "$here/out"
    head -n 1 own.record > "$here/digest"
    for record in run/*.record; do head -n 1 "$record"; done | sort -u | cmp -s - "$here/digest"
    count "the records are on the formula's own file and its cubes" $?
    "$join" --formula formula.cnf cubes run/0.record run/1.record run/3.record > "$here/out"
    [ $? -eq 1 ] && [ "$(tail -n 1 "$here/out")" = "s OPEN" ]
    count "without a record it is open" $?
    sed 's/^-1 /1 /' formula.cnf > other.cnf
    "$join" --formula other.cnf cubes run/*.record > "$here/out" 2> "$here/err"
    [ $? -eq 3 ] && [ "$(cat "$here/err")" = "cubejoin: F15 report 1" ]
    count "the records of this formula aren't taken for those of another" $?
    cd "$root" || exit 1
}

# As with a CaDiCaL that has no --lrat, and then what is said of what is missing.
other_ways() {
    mkdir "$here/old" "$here/few"
    printf '%s\n' '#!/bin/sh' "solver='$solver'" '[ "$1" = --help ] || exec "$solver" "$@"' \
        '"$solver" --help | grep -v lrat' > "$here/old/cadical"
    chmod +x "$here/old/cadical"
    rm -rf "$folder"
    note "$here/none" env PATH="$here/old:$PATH" sh "$published/run.sh" pentagon
    is_refuted && [ -x "$folder/drat2lrat" ]
    count "so it is by DRAT, which drat2lrat turns into LRAT" $?
    published squares
    is_refused "run.sh: run.sh NAME [FOLDER], where NAME is pentagon, schur or van_der_waerden"
    count "another name is refused" $?
    published schur pentagon
    is_refused "run.sh: the folder $folder has a run of another formula"
    count "the folder of another formula is refused" $?
    for tool in dirname python3 rustc; do ln -s "$(command -v "$tool")" "$here/few/"; done
    note "$here/none" env PATH="$here/few" "$(command -v sh)" "$published/run.sh" pentagon
    is_refused "run.sh: it needs cadical, which isn't in the PATH"
    count "without a solver it says so" $?
    note "$here/none" env CUBEJOIN=./none sh "$published/run.sh" pentagon
    is_refused "run.sh: there is no program $here/run/./none"
    count "without the program that joins it says so" $?
}

# Whether the last run has the status 2 and said this alone: the line.
is_refused() {
    [ "$(cat "$here/status")" -eq 2 ] && [ ! -s "$here/out" ] && [ "$(cat "$here/err")" = "$1" ]
}

# What the solver says of a formula: the claim, the status, and the words for formulas.py.
solver_says() {
    claim=$1
    wanted=$2
    shift 2
    python3 "$published/formulas.py" "$@" > "$here/formula.cnf"
    note "$here/none" cadical -q "$here/formula.cnf"
    [ "$(cat "$here/status")" -eq "$wanted" ]
    count "$claim: formulas.py $*" $?
}

# A theorem and its bound, by the least number for which it holds: the name, the number, the rest.
bound() {
    theorem=$1
    least=$2
    shift 2
    solver_says "it has no model" 20 "$theorem" "$least" "$@"
    solver_says "it has a model" 10 "$theorem" "$((least - 1))" "$@"
}

# The pentagon's formula with wrong clauses, which points.py has to find out: what is put in whose
# place, and the number of points.
wrong_clauses() {
    mkdir -p "$here/wrong"
    cp "$published/points.py" "$here/wrong/"
    sed "s/$1/$2/" "$published/formulas.py" > "$here/wrong/formulas.py"
    ! cmp -s "$published/formulas.py" "$here/wrong/formulas.py"
    count "there are clauses $1" $?
    note "$here/none" python3 "$here/wrong/points.py" "$3" 200
    [ "$(cat "$here/status")" -eq 1 ] && grep -q ' [1-9][0-9]* wrong$' "$here/out"
    count "points.py finds out the clauses with $2" $?
}

# The commands of the page, and what they print.
page() {
    cut_page "$published/README.md"
    ln -s "$root/examples" "$here/run/"
    note "$here/none" sh "$here/page/checked besides.1"
    [ "$(sort "$here/out" | uniq -c | tr -s ' ')" = " 2 s SATISFIABLE" ] && [ ! -s "$here/err" ]
    count "the page: with a point or a number less the solver finds a model" $?
    note "$here/none" sh "$here/page/checked besides.2"
    [ "$(grep -c ' [1-9][0-9]* without an empty convex pentagon, 0 wrong$' "$here/out")" -eq 3 ] &&
        [ ! -s "$here/err" ]
    count "the page: the pentagon's formula says of points what their coordinates say" $?
}

begin
whole_run
other_ways
bound pentagon 10
bound schur 2 1
bound schur 5 2
bound schur 14 3
bound van_der_waerden 9 3 3
bound van_der_waerden 18 3 4
bound van_der_waerden 32 3 6
bound van_der_waerden 35 4 4
wrong_clauses "-side \* edge" "side * edge" 6
wrong_clauses "-side \* below" "side * below" 6
wrong_clauses "range(a + 1, c) if" "range(a + 1, b) if" 6
wrong_clauses "\[x, -y, z\]" "[x, y, z]" 6
wrong_clauses "clauses.append(full" "len(full" 7
page
finish
