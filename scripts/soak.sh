#!/bin/sh
# Runs the built program on small random bundles, which scripts/soak.awk makes, each by one worker with `--cut 0`, from standard input, which is held as a whole since a folder is asked
# for (which isn't there), and by a random number of workers with a random cut, as FILE, which is judged while it is read, and looks whether report, standard error and status are the same, and of the form that docs/FORMATS.md says
# (scripts/form.awk): a report with the status of its last line and nothing on standard error, or no report, the status 3 and the line of a
# fault. So it tries the claim that the report is the same for every number of workers, every cut and every schedule; what the report has to
# be, the rows say. From 200 runs on, each of the three kinds of answer has to occur: refuted, open and refused. Each bundle is tried once more, taken apart into FILE
# and a folder of proofs (scripts/soak_folder.awk): where the bundle has a report, both together have the same one, and where it has a fault, the
# answers of one worker and of several are the same, and of one of these forms.
#
#     sh scripts/soak.sh [RUNS [SEED]]
#
# Without RUNS it is 10,000 of them. Without SEED it is another one each time; the first line tells it, and it gives the same bundles again
# with the same awk. A run that hasn't ended after 20 seconds is ended, and fails. Where something is wrong, the bundle is kept, and a line
# says where. The last line counts: two claims for each bundle, and two for the kinds of answer and the ways of reading.
root=$(CDPATH= cd -- "$(dirname -- "$0")/.." && pwd) || exit 1
runs=${1:-10000}
seed=${2:-$(($(date +%s) % 1000000 * 1000 + $$ % 1000))}
. "$root/scripts/runs.sh"
kept=${TMPDIR:-/tmp}/cubeboard-soak-$seed
refuted=0
open=0
refused=0
labels=0
echo "soak: seed $seed"

build_program

# The line of each fault of an input, as an extended regular expression.
number='[1-9][0-9]*'
fault="cubeboard: F(1 header|2 token, line $number|3 unfinished|4 too large, line $number|5 limit|7 cube $number repeats\
|8 cubes $number and $number are not of one tree|9 cubes $number and $number overlap|10 bad label, line $number\
|11 no such leaf, line $number|12 second proof, line $number)"

# Whether the last run, with this status, is of the form that goes with it.
has_form() {
    case $1 in
        0) [ ! -s "$here/err" ] && LC_ALL=C awk -v answer=REFUTED -f "$root/scripts/form.awk" "$here/out" ;;
        1) [ ! -s "$here/err" ] && LC_ALL=C awk -v answer=OPEN -f "$root/scripts/form.awk" "$here/out" ;;
        3) [ ! -s "$here/out" ] && [ "$(wc -l < "$here/err")" -eq 1 ] && grep -q -x -E -e "$fault" "$here/err" ;;
        *) false ;;
    esac
}

# Compares the runs of one bundle: its number, and the words of the second one.
both() {
    number=$1
    shift
    timeout 20 "$program" --workers 1 --cut 0 --proofs "$here/absent" < "$here/$number.in" > "$here/one.out" 2> "$here/one.err"
    one=$?
    timeout 20 "$program" "$@" "$here/$number.in" > "$here/out" 2> "$here/err"
    status=$?
    case $one in
        0) refuted=$((refuted + 1)) ;;
        1) open=$((open + 1)) ;;
        3) refused=$((refused + 1)) ;;
    esac
    [ "$one" -eq "$status" ] && cmp -s "$here/one.out" "$here/out" && cmp -s "$here/one.err" "$here/err" && has_form "$status"
    right=$?
    if [ "$right" -ne 0 ]; then
        mkdir -p "$kept"
        cp "$here/$number.in" "$kept/"
    fi
    echo "$status" > "$here/status"
    count "$kept/$number.in by $*, where one worker's status is $one" "$right"
    apart "$@"
    rm "$here/$number.in"
}

# The same bundle with its proofs in a folder: the words of the second run. What the whole bundle's run has left is compared with.
apart() {
    rm -rf "$here/parts"
    mkdir -p "$here/parts/proofs"
    LC_ALL=C awk -v seed="$seed$number" -v file="$here/parts/case.icnf" -v folder="$here/parts/proofs" -f "$root/scripts/soak_folder.awk" "$here/$number.in"
    [ -s "$here/$number.in" ] || : > "$here/parts/case.icnf"
    ! grep -q -s '^[[:blank:]]*l' "$here/parts/proofs"/*.lrat || labels=$((labels + 1))
    timeout 20 "$program" --workers 1 --cut 0 --proofs "$here/parts/proofs" "$here/parts/case.icnf" > "$here/alone.out" 2> "$here/alone.err"
    alone=$?
    timeout 20 "$program" "$@" --proofs "$here/parts/proofs" "$here/parts/case.icnf" > "$here/out" 2> "$here/err"
    status=$?
    [ "$alone" -eq "$status" ] && cmp -s "$here/alone.out" "$here/out" && cmp -s "$here/alone.err" "$here/err" && has_form "$status" \
        && { [ "$one" -eq 3 ] || { [ "$one" -eq "$status" ] && cmp -s "$here/one.out" "$here/out"; }; }
    right=$?
    if [ "$right" -ne 0 ]; then
        mkdir -p "$kept/$number"
        cp -r "$here/parts/." "$here/$number.in" "$kept/$number/"
    fi
    echo "$status" > "$here/status"
    count "$kept/$number as a folder by $*, where the bundle's status is $one" "$right"
}

first=1
while [ "$first" -le "$runs" ]; do
    some=$((runs - first + 1))
    [ "$some" -le 500 ] || some=500
    LC_ALL=C awk -v seed="$seed" -v first="$first" -v count="$some" -v folder="$here" -f "$root/scripts/soak.awk" > "$here/list" || exit 1
    while read -r number settings; do
        both "$number" $settings
    done < "$here/list"
    first=$((first + some))
done
echo "soak: by one worker: $refuted refuted, $open open, $refused with a fault"
if [ "$runs" -ge 200 ]; then
    [ "$refuted" -gt 0 ] && [ "$open" -gt 0 ] && [ "$refused" -gt 0 ]
    count "each kind of answer occurred" $?
    [ "$labels" -gt 0 ] && [ "$labels" -lt "$runs" ]
    count "folders with a label line, and folders without one" $?
fi
finish
