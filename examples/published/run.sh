#!/bin/sh
# run.sh NAME [FOLDER]: refutes the formula of a published theorem, from nothing to the answer. NAME
# is pentagon, schur or van_der_waerden. FOLDER is made, by default the folder NAME where this is
# called; if a call is interrupted, the next one goes on.
#
# In FOLDER are formula.cnf, cubes, and in run/ what the jobs of ../cluster take and leave. Each job
# solves its leaves, checks their proofs and leaves a record; no proof is kept, unless KEEP says so
# (cluster/job.sh). The records are joined with --formula, so that the answer is one on formula.cnf.
# The status is that of the join: 0 if the formula is refuted.
#
# It needs python3, a Rust compiler, `cadical`, and the two programs: CUBEBOARD and CUBEJOIN are
# their paths, by default those of the folder above examples. PROCESSES says how many jobs run at a
# time, without it 1.
root=$(CDPATH= cd -- "$(dirname -- "$0")/../.." && pwd) || exit 1
examples=$root/examples

# Ends the run with a line on standard error: the status and the line.
refuse() {
    echo "run.sh: $2" >&2
    exit "$1"
}

# A program's name, or its path from any folder.
from_anywhere() {
    case $1 in
        /*) echo "$1" ;;
        */*) echo "$PWD/$1" ;;
        *) echo "$1" ;;
    esac
}

# The words of each theorem for formulas.py, the number of its cubes, and that of the jobs.
name=${1:-none}
case $name in
    pentagon) words=10 leaves=16 jobs=4 ;;
    schur) words="45 4" leaves=1024 jobs=16 ;;
    van_der_waerden) words="109 4 7" leaves=1024 jobs=32 ;;
    *) refuse 2 "run.sh NAME [FOLDER], where NAME is pentagon, schur or van_der_waerden" ;;
esac
for tool in python3 rustc cadical; do
    command -v "$tool" > /dev/null || refuse 2 "it needs $tool, which isn't in the PATH"
done
CUBEBOARD=$(from_anywhere "${CUBEBOARD:-$root/cubeboard}")
CUBEJOIN=$(from_anywhere "${CUBEJOIN:-$root/cubejoin}")
for program in "$CUBEBOARD" "$CUBEJOIN"; do
    command -v "$program" > /dev/null || refuse 2 "there is no program $program"
done

# The formula. A folder with another one has another run.
formula() {
    python3 "$examples/published/formulas.py" "$name" $words > formula.part ||
        refuse 1 "the formula can't be made"
    [ ! -e formula.cnf ] || cmp -s formula.part formula.cnf ||
        refuse 2 "the folder $PWD has a run of another formula"
    mv formula.part formula.cnf
}

# The splitter and the cubes.
split() {
    rustc -O --edition 2024 -o cubesplit "$examples/split/cubesplit.rs" || return
    ./cubesplit formula.cnf "$leaves" > cubes.part && mv cubes.part cubes
}

# The bundle that --formula makes of formula.cnf and cubes, byte for byte: in the place of the
# problem line `p inccnf` and blanks, and behind the text a line end and the cubes. So the records
# on it are records on these two files, and the join refuses all others.
bundle() {
    awk '/^p cnf / { $0 = sprintf("%-" length($0) "s", "p inccnf") } { print }' formula.cnf
    echo
    cat cubes
}

# The tool for a CaDiCaL that writes no LRAT, such as that of Debian 12, if it isn't there.
lrat_tool() {
    cadical --help | grep -q -e '--lrat' && return
    [ -z "${DRAT2LRAT:-}" ] || return 0
    DRAT2LRAT=$PWD/drat2lrat
    export DRAT2LRAT
    [ -x drat2lrat ] || rustc -O --edition 2024 -o drat2lrat "$root/bench/tools/drat2lrat.rs"
}

# The jobs, each of which leaves its record.
solve() {
    mkdir -p run && cp "$examples"/cluster/* run/ && bundle > run/case.icnf || return
    SOLVE=$examples/published/noted.sh SOLVER=$PWD/run/solve.sh NOTES=$PWD/notes
    export CUBEBOARD SOLVE SOLVER NOTES
    seq 0 $((jobs - 1)) | (cd run && xargs -P "${PROCESSES:-1}" -I JOB sh job.sh JOB "$jobs")
}

# What this call has cost: leaves and bytes are those of all calls in this folder.
tell() {
    times > times
    awk 'FNR == 1 { file++ }
        file == 1 && FNR == 2 {
            gsub("s", "")
            for (i = 1; i <= 2; i++) { split($i, part, "m"); seconds += 60 * part[1] + part[2] }
        }
        file == 2 { leaves++; bytes += $1 }
        END {
            printf "%d leaves solved, %d bytes of proofs\n", leaves, bytes
            printf "%.1f processor seconds in this call\n", seconds
        }' times notes
}

mkdir -p "${2:-$name}" && cd "${2:-$name}" || exit 1
formula
[ -s cubes ] || split || refuse 1 "the formula can't be split"
lrat_tool || refuse 1 "the tool drat2lrat can't be compiled"
echo "formula.cnf: $(grep '^p cnf' formula.cnf), SHA-256 $(sha256sum < formula.cnf | cut -c1-64)"
solve
"$CUBEJOIN" --formula formula.cnf cubes run/*.record > joined.report
status=$?
tell
echo "joined.report: $(wc -l < cubes) cubes, $(tail -n 1 joined.report), status $status"
exit "$status"
