#!/bin/sh
# Tries examples/cluster: the example van-der-waerden-3-6 in sixteen jobs, by the commands of the README there, by a plain loop and by each engine that is
# here; the records joined have to give the report of one run over all proofs. Then, with four jobs, what a job leaves that is killed, that can't solve or
# that has a leaf too hard for its solver, and what the join says of records that are missing, cut short or of another formula.
#
#     sh scripts/cluster.sh [ENGINE ..]
#
# ENGINE is loop, parallel, snakemake, snakemake-slurm or slurm; without one all of them are tried, and those that aren't here are skipped, also where CI is
# set: `./check` tries the loop alone. It takes no solver: in its place the jobs have one that hands out the example's proofs, and only for a formula that
# has the bytes of the leaf. The last line counts.
root=$(CDPATH= cd -- "$(dirname -- "$0")/.." && pwd) || exit 1
engines=${*:-loop parallel snakemake snakemake-slurm slurm}
. "$root/scripts/runs.sh"
build_program
build_join
EXAMPLE=$root/examples/van-der-waerden-3-6
SOLVE="$here/a solver"
NOTES=$here/notes
CUBEBOARD=$program
CUBEJOIN=$join
TMPDIR="$here/the jobs' room"
# Leaves that the solver gives up on, one at which it is stuck, one at which it is killed when half of
# the proof is written, and one whose proof it ends with a label line.
HARD=
STUCK=
HALF=
LABEL=
export EXAMPLE SOLVE NOTES CUBEBOARD CUBEJOIN TMPDIR HARD STUCK HALF LABEL
unset WORKERS KEEP
mkdir "$TMPDIR"
echo 0 > "$here/zero"
report=$EXAMPLE.report

# The solver: the literals of the leaf are behind the formula's 327 clauses, and its number is that of the line that has them in the file of cubes. It reads
# its input to the end, as some solvers do.
cat > "$SOLVE" << 'SOLVER'
#!/bin/sh
cat > /dev/null
literals=$(tail -n +329 "$1" | sed 's/ 0$//' | tr '\n' ' ')
number=$(grep -n -x "a ${literals}0" "$EXAMPLE/cubes" | cut -d : -f 1)
{
    echo "p cnf 32 $((327 + $(echo "$literals" | wc -w)))"
    grep -v '^[cp]' "$EXAMPLE/formula.cnf"
    for literal in $literals; do echo "$literal 0"; done
} | cmp -s - "$1" || exit 1
echo "$number" >> "$NOTES"
[ "$number" != "$STUCK" ] || exec sleep 5
case " $HARD " in *" $number "*) exit 0 ;; esac
[ ! -p "$2" ] || echo "$number" >> "$NOTES.pipes"
proof=$EXAMPLE/proofs/$number.lrat
if [ "$number" = "$HALF" ]; then
    head -c "$(($(wc -c < "$proof") / 2))" "$proof" > "$2"
    kill -KILL $$
fi
if [ "$number" = "$LABEL" ]; then
    { cat "$proof" && printf 'l 1'; } > "$2" && exit 20
fi
cp "$proof" "$2" && exit 20
SOLVER
chmod +x "$SOLVE"

cut_page "$root/examples/cluster/README.md"

# Runs a command in the folder of the run.
in_folder() {
    (cd "$folder" && timeout 300 "$@") < /dev/null > "$here/out" 2> "$here/err"
    echo $? > "$here/status"
}

# A new folder for a run: its name.
begin() {
    folder=$here/$1
    mkdir "$folder" && cp "$EXAMPLE/case.icnf" "$root/examples/cluster/"* "$folder/" || exit 1
    : > "$NOTES"
    : > "$NOTES.pipes"
}

# Joins these records, or with --unbound these reports, of the case of this folder.
join() {
    in_folder "$join" "$@"
}

# Whether the last run has written the report of one run over all proofs, with the status 0 and no more.
is_whole() {
    has_given "$report" "$here/none" "$here/zero"
}

# Whether it has written nothing, and refused this one of the reports.
refuses() {
    [ "$(cat "$here/status")" -eq 3 ] && [ ! -s "$here/out" ] && [ "$(cat "$here/err")" = "cubejoin: F15 report $1" ]
}

# Whether it has left just these branches open: how many.
is_open() {
    [ "$(cat "$here/status")" -eq 1 ] && [ "$(tail -n 1 "$here/out")" = "s OPEN" ] && [ "$(grep -c '^o ' "$here/out")" -eq "$1" ] && [ ! -s "$here/err" ]
}

# Whether the solver was called for just these leaves since the last such question, in some order.
has_solved() {
    sort -n "$NOTES" | tr '\n' ' ' > "$here/solved"
    : > "$NOTES"
    [ "$(cat "$here/solved")" = "$*${*:+ }" ]
}

# Whether there are this many records, and nothing that isn't whole; and no proof.
has_records() {
    (cd "$folder" && [ "$(ls -- *.record | wc -l)" -eq "$1" ] && ! ls | grep -q -e part -e lrat) && [ -z "$(find "$TMPDIR" -name '*.lrat' -o -name leaves)" ]
}

# Whether an engine is here, and otherwise that it is skipped.
is_here() {
    case $1 in
        loop) ;;
        parallel) command -v parallel > /dev/null ;;
        snakemake) command -v snakemake > /dev/null ;;
        snakemake-slurm) command -v snakemake > /dev/null && timeout 10 sinfo > /dev/null 2>&1 ;;
        slurm) timeout 10 sinfo > /dev/null 2>&1 ;;
        *) false ;;
    esac && return
    skip "$1" "it isn't here, or doesn't answer"
    return 1
}

# The README's commands for an engine; where Slurm only takes the join, this waits until it has ended.
by_engine() {
    rm -f "$folder/joined.report"
    case $1 in
        loop) in_folder sh "$here/page/a plain loop.1" ;;
        parallel) in_folder sh "$here/page/gnu parallel.1" ;;
        snakemake-slurm) in_folder sh "$here/page/snakemake through slurm.1" ;;
        *) in_folder sh "$here/page/$1.1" ;;
    esac
    if [ "$1" = slurm ]; then
        id=$(sed -n 's/^Submitted batch job //p' "$here/out")
        tries=0
        while [ -n "$(squeue -h -j "$id" 2> /dev/null)" ] && [ "$tries" -lt 600 ]; do sleep 0.5; tries=$((tries + 1)); done
    fi
}

# Sixteen jobs by an engine, and then the one whose record is taken away.
try_engine() {
    begin "sixteen jobs by $1"
    by_engine "$1"
    [ "$(cat "$here/status")" -eq 0 ] && cmp -s "$folder/joined.report" "$report"
    count "$1: sixteen jobs, joined, give the report of one run" $?
    has_records 16 && has_solved $(seq 32)
    count "$1: each leaf is solved once, each job leaves its record, and no proof stays" $?
    rm "$folder/5.record"
    by_engine "$1"
    [ "$(cat "$here/status")" -eq 0 ] && cmp -s "$folder/joined.report" "$report" && has_solved 5 21
    count "$1: called again it runs the job whose record is missing, and no other" $?
}

# One of four jobs: its number, and what else the environment has for it.
job() {
    number=$1
    shift
    in_folder env "$@" sh job.sh "$number" 4
}

# The four jobs of a folder, in turn, whose records are then joined in all ways.
four_jobs() {
    begin "four jobs' folder"
    for number in 0 1 2 3; do
        job "$number"
        [ "$(cat "$here/status")" -eq 0 ] && [ ! -s "$here/err" ] && has_solved $(seq 32 | awk -v job="$number" '$1 % 4 == job')
        count "job $number of four runs and solves its leaves" $?
    done
    has_records 4
    count "four jobs leave four records and no proof" $?
    join case.icnf 0.record 1.record 2.record 3.record
    is_whole
    count "four jobs, joined, give the report of one run" $?
    # A RECORD that can be read once only.
    (cd "$folder" && cat 3.record | exec timeout 20 "$join" case.icnf 0.record 1.record 2.record /dev/stdin) > "$here/out" 2> "$here/err"
    echo $? > "$here/status"
    is_whole
    count "a record from a pipe, joined" $?
    join case.icnf 3.record 1.record 1.record 0.record 2.record
    is_whole
    count "so they do in another order and with one of them twice" $?
}

# What stands in for a record: fewer, a joined report, one cut short, one of another formula.
other_records() {
    sed 1d "$folder/2.record" > "$folder/2.report"
    join case.icnf 0.record 1.record 3.record
    is_open 8
    count "without a record its leaves are open" $?
    cp "$here/out" "$folder/some.report"
    join --unbound case.icnf some.report 2.report
    is_whole
    count "a joined report is a report: joined with that of the missing job it is that of one run" $?
    join case.icnf 0.record some.report
    refuses 2
    count "a report isn't taken for a record" $?
    for length in 0 66 67 300 "$(($(wc -c < "$folder/2.record") - 1))"; do
        head -c "$length" "$folder/2.record" > "$folder/short"
        join case.icnf 0.record 1.record short 3.record
        refuses 3
        count "the first $length bytes of a record are refused" $?
    done
    another_formula
    join case.icnf 0.record 1.record 2.record 3.record other.record
    refuses 5
    count "a record of another formula with the same cubes is refused" $?
    join other.icnf other.record
    is_whole
    count "of that formula it is one" $?
    join case.icnf 0.record none.record
    [ "$(cat "$here/status")" -eq 5 ] && [ ! -s "$here/out" ] && [ "$(cat "$here/err")" = "cubejoin: F13 device" ]
    count "a record that isn't there" $?
}

# The formula with one clause more, the empty one: each leaf is refuted by a proof without a step.
another_formula() {
    mkdir "$folder/no steps"
    for number in $(seq 32); do : > "$folder/no steps/$number.lrat"; done
    awk '/^a / && !done {print "0"; done = 1} {print}' "$folder/case.icnf" > "$folder/other.icnf"
    in_folder "$program" --proofs "no steps" --record other.record other.icnf
    is_whole
    count "another formula with the same cubes is refuted" $?
}

# What a job leaves that doesn't come to its end, or has a leaf that isn't solved.
jobs_that_fail() {
    begin "jobs that fail"
    job 2 HARD="6 30"
    [ "$(cat "$here/status")" -eq 0 ] && [ "$(grep -c "stays open: the solver's status is 0" "$here/err")" -eq 2 ] && has_records 1
    count "a job whose solver gives up on two leaves says so and leaves a record" $?
    for number in 0 1 3; do job "$number"; done
    join case.icnf 0.record 1.record 2.record 3.record
    is_open 2
    count "these two are open" $?
    mkdir "$folder/yesterday" && mv "$folder/2.record" "$folder/yesterday/"
    : > "$NOTES"
    job 2 SOLVE=./no_such_solver
    [ "$(cat "$here/status")" -eq 1 ] && grep -q "no_such_solver" "$here/err" && has_records 3
    count "a job whose solver can't be run leaves no record" $?
    sed 's/^p inccnf/p cnf 32 327/' "$folder/case.icnf" > "$folder/good" && mv "$folder/good" "$folder/case.icnf"
    job 2
    [ "$(cat "$here/status")" -eq 1 ] && grep -q "F1 header" "$here/err" && has_records 3 && has_solved
    count "a job on a case that is refused solves nothing and leaves no record" $?
    cp "$EXAMPLE/case.icnf" "$folder/"
    cut_short KILL 137
    cut_short 5 1
    killed_job
    job 2 KEEP="the kept"
    [ "$(cat "$here/status")" -eq 0 ] && has_solved 14 18 22 26 30
    count "the same job again solves the leaves that have no proof in its folder of proofs" $?
    join case.icnf yesterday/2.record 0.record 1.record 2.record 3.record
    is_whole
    count "the records of two days, joined, give the report of one run" $?
    rm -rf "${TMPDIR:?}"/*
}

# A job whose check ends when half of the record is written, as by a full disk, or is killed then: the signal or the status of the check, and that of the job.
cut_short() {
    printf '%s\n' '#!/bin/sh' '[ $# -gt 1 ] || exec "$PROGRAM" "$@"' '"$PROGRAM" "$@" && exit 70' 'head -c 100 "$6" > half && mv half "$6"' \
        'case $END in KILL) kill -KILL "$PPID" ;; *) exit "$END" ;; esac' > "$folder/a check"
    chmod +x "$folder/a check"
    { job 2 PROGRAM="$program" CUBEBOARD="./a check" END="$1"; } 2> /dev/null
    [ "$(cat "$here/status")" -eq "$2" ] && [ ! -e "$folder/2.record" ]
    count "a job whose check ends by $1 in the midst of its record leaves none" $?
    rm -f "$folder"/*.part.*
    : > "$NOTES"
}

# A job that keeps its proofs, and is killed at its fourth leaf.
killed_job() {
    (cd "$folder" && STUCK=14 KEEP="the kept" exec sh job.sh 2 4) < /dev/null > /dev/null 2>&1 &
    wait_for 14
    kill -KILL $!
    wait $! 2> /dev/null
    [ $? -gt 128 ] && [ ! -e "$folder/2.record" ] && has_solved 2 6 10 14 && [ "$(ls "$folder/the kept" | tr '\n' ' ')" = "10.lrat 2.lrat 6.lrat " ]
    count "a job that is killed leaves no record, and of its proofs those that are whole" $?
}

# Jobs that keep no proof: each is checked while it is written.
jobs_with_pipes() {
    begin "jobs with pipes"
    for number in 0 1 2 3; do job "$number" WORKERS=3; done
    has_records 4 && has_solved $(seq 32) && [ "$(sort -n "$NOTES.pipes" | tr '\n' ' ')" = "$(seq 32 | tr '\n' ' ')" ]
    count "by three workers each leaf is solved once, and each proof goes through a pipe" $?
    join case.icnf 0.record 1.record 2.record 3.record
    is_whole
    count "such jobs, joined, give the report of one run" $?
    rm "$folder/1.record"
    job 1 KEEP=kept
    [ "$(wc -l < "$NOTES.pipes")" -eq 32 ] && [ "$(ls "$folder/kept" | wc -l)" -eq 8 ] && rm "$folder/1.record"
    count "a job that keeps its proofs has no pipe" $?
    : > "$NOTES"
    { job 1 HALF=13; } 2> /dev/null
    [ "$(cat "$here/status")" -eq 0 ] && grep -q "the leaf 13 stays open: the solver's status is 137" "$here/err" && has_records 4 &&
        has_solved 1 5 9 13 17 21 25 29 && grep -q -E '^a 13 rejected [0-9]+ (end|unreadable)$' "$folder/1.record"
    count "a solver that is killed in the midst of a proof: its leaf is open, and the others are solved" $?
    join case.icnf 0.record 1.record 2.record 3.record
    is_open 1
    count "the join has that leaf open" $?
    rm "$folder/1.record"
    # (The label line has no line end, so the check meets it when the solver is done with the pipe.
    # All pipes are there till the check is over, so that the proofs can't be read again.)
    for number in 1 13 29; do
        job 1 LABEL="$number"
        [ "$(cat "$here/status")" -eq 1 ] && has_records 3 && grep -q -x "cubeboard: F13 device" "$here/err"
        count "a solver that ends the proof of the leaf $number with a label line: the job ends, without a record" $?
    done
    ended_jobs
}

# A check that ends at once, and a job that is told to end while its solver is at work.
ended_jobs() {
    : > "$NOTES"
    printf '%s\n' '#!/bin/sh' '[ $# -gt 1 ] || exec "$PROGRAM" "$@"' 'exit 5' > "$folder/no check"
    chmod +x "$folder/no check"
    job 1 PROGRAM="$program" CUBEBOARD="./no check" WORKERS=2
    [ "$(cat "$here/status")" -eq 1 ] && has_records 3 && has_solved
    count "if the check ends at once, the job ends without a record, and solves nothing" $?
    (cd "$folder" && STUCK=13 exec sh job.sh 1 4) < /dev/null > /dev/null 2>&1 &
    wait_for 13
    kill -TERM $!
    wait $! 2> /dev/null
    [ $? -eq 1 ] && has_records 3
    count "a job that is told to end leaves no record, and nothing of its proofs" $?
}

# Leaves one by one, by examples/solve_leaf.sh.
single_leaves() {
    begin "single leaves"
    cp "$report" "$folder/report"
    in_folder sh "$root/examples/solve_leaf.sh" 7
    [ "$(cat "$here/status")" -eq 0 ] && cmp -s "$folder/proofs/7.lrat" "$EXAMPLE/proofs/7.lrat" && [ "$(ls "$folder/proofs")" = 7.lrat ]
    count "a leaf's proof is moved into place" $?
    in_folder env HARD=8 sh "$root/examples/solve_leaf.sh" 8
    [ "$(cat "$here/status")" -eq 1 ] && grep -q "the leaf 8 stays open: the solver's status is 0" "$here/err" && [ "$(ls "$folder/proofs")" = 7.lrat ]
    count "a leaf that the solver gives up on has no proof" $?
    seq 32 > "$folder/leaves"
    in_folder sh -c 'SOLVE=./no_such_solver xargs -n 1 sh "$0" < leaves' "$root/examples/solve_leaf.sh"
    [ "$(cat "$here/status")" -ne 0 ] && [ "$(grep -c "no_such_solver can't be run" "$here/err")" -eq 1 ] && [ "$(ls "$folder/proofs")" = 7.lrat ]
    count "a solver that can't be run stops all leaves at the first" $?
    : > "$NOTES"
    (cd "$folder" && STUCK=9 exec sh "$root/examples/solve_leaf.sh" 9) < /dev/null > /dev/null 2>&1 &
    wait_for 9
    kill -TERM $!
    wait $! 2> /dev/null
    [ $? -eq 1 ] && [ "$(ls "$folder/proofs")" = 7.lrat ] && [ -z "$(ls "$TMPDIR")" ]
    count "a leaf that is told to end leaves nothing, and doesn't wait for its solver" $?
}

# Waits until the solver has noted a leaf, for a minute at most.
wait_for() {
    tries=0
    until [ "$(grep -c -x "$1" "$NOTES")" -eq 1 ] || [ "$tries" -gt 600 ]; do sleep 0.1; tries=$((tries + 1)); done
}

# A tree of one cube and a missing leaf, in two jobs, with a section for the root that doesn't hold: the missing leaf is solved as the second cube would be.
missing_leaf() {
    begin "a missing leaf"
    printf '%s\n' 'p inccnf' 'c four clauses' '1 2 0 1 -2 0' '-1 2 0' '' '-1 -2 0' 'a 1 0' 'l n 0' '5 9 0 7 0' > "$folder/case.icnf"
    cat > "$folder/small solver" << 'SOLVER'
#!/bin/sh
formula="p cnf 2 5,1 2 0 1 -2 0,-1 2 0,-1 -2 0"
case $(tr '\n' , < "$1") in
    "$formula,1 0,") echo "6 0 5 3 4 0" > "$2" ;;
    "$formula,-1 0,") echo "6 0 5 1 2 0" > "$2" ;;
    *) exit 1 ;;
esac
exit 20
SOLVER
    chmod +x "$folder/small solver"
    for number in 1 0; do in_folder env SOLVE="./small solver" KEEP="kept.$number" sh job.sh "$number" 2; done
    [ "$(ls "$folder/kept.1")" = 1.lrat ] && [ "$(ls "$folder/kept.0")" = m1.lrat ]
    count "each job solves its leaf, the cube and the missing one" $?
    join case.icnf 0.record 1.record
    [ "$(cat "$here/status")" -eq 0 ] && [ "$(sed 1d "$here/out" | tr '\n' ,)" = "a 1 refuted,m 1 -1 0 refuted,n 0 rejected 1 hint,w 0,s REFUTED," ]
    count "their join is refuted, and tells of the section in the bundle" $?
}

four_jobs
other_records
jobs_that_fail
jobs_with_pipes
single_leaves
missing_leaf
for engine in $engines; do
    if is_here "$engine"; then try_engine "$engine"; fi
done
finish
