#!/bin/sh
# Runs the built program with many threads, and looks at its standard output, its standard error and
# its status, byte for byte:
# - on the rows of tests/rows that have no word for the workers or the cut of their own, and on each
#   beginning of the bundle of tests/prefixes, as a file and by a pipe; and by pipes whose writer is
#   slow;
# - on bundles that are made here, the report of which is known from how they are made: fewer
#   sections than workers and more, 4,096 sections that are all rejected, all sections under one part,
#   proofs for the root and for inner nodes at each depth, one long proof among empty ones;
# - on folders of proofs: thousands of leaves of which each third has a file, one that can't be read
#   among them, a label line in the last of them, and files that come or change while the program
#   runs;
# - with standard streams that fail: a full device, one that fails at its Nth write or takes one byte
#   at a time, a pipe that fails at its Nth read or gives one byte at a time, a closed descriptor, a
#   pipe that nobody reads. There the status is 5 where the report, or the input, met a failure, and
#   what was written is a beginning of the report; whether the error could be written changes no
#   status. How a system treats the writer of a pipe that nobody reads makes no difference: the
#   program takes no signal for it, the write fails, and that is F13.
# A run that hasn't ended after a minute is ended, and fails. The reads and writes that fail need a C
# compiler; where there is none, they are skipped, or fail where CI is set. The last line counts.
root=$(CDPATH= cd -- "$(dirname -- "$0")/.." && pwd) || exit 1
. "$root/scripts/runs.sh"
printf '0\n' > "$here/zero"
printf '1\n' > "$here/one"
echo "cubeboard: F13 device" > "$here/device"
build_program

# The rows, which rows.sh runs with one worker, and with four and the cut 3.
for input in "$root"/tests/rows/*.in; do
    path=${input%.in}
    if ! has_settings "$path"; then
        row "$path" --workers 32 --cut 6
    fi
done

beginnings --workers 32 --cut 6

# The input by a pipe: cut behind each of its bytes, written byte by byte, and by a writer that stops
# for a second in the midst.
by_bytes() { dd bs=1 status=none if="$1"; }
with_a_pause() {
    half=$(($(wc -c < "$1") / 2))
    head -c "$half" "$1"
    sleep 1
    tail -c +$((half + 1)) "$1"
}
feed=cat
beginnings --workers 4 --cut 3
for feed in by_bytes with_a_pause; do
    for name in two_cubes_refuted candidate_without_a_group bundle_below_a_formula; do
        row "$root/tests/rows/$name" --workers 4 --cut 3
    done
done
feed=

# What the bundles below are made with. Their trees split on variable v at depth v - 1, and nodes of one depth are numbered from 0 in
# tree order. In `whole`, the formula has the negation of leaf i's path as its clause i + 1, so that leaf i, and no other, is refuted
# by its units and that clause.
functions='
function put(line) { print line > bundle }
function say(line) { print line > report }
# The path of node i at depth d, with a blank behind each literal, and the literals of its negation.
function path(i, d,    v, text) {
    for (v = d; v > 0; v--) {
        text = (i % 2 ? -v : v) " " text
        i = int(i / 2)
    }
    return text
}
function against(i, d,    v, text) {
    for (v = d; v > 0; v--) {
        text = (i % 2 ? v : -v) " " text
        i = int(i / 2)
    }
    return text
}
# The clauses and the cubes of a tree whose leaves are all cubes of depth d: m is the number of clauses, further ones among them.
function whole(d, further,    i) {
    put("p inccnf")
    m = 2 ^ d
    for (i = 0; i < 2 ^ d; i++) put(against(i, d) "0")
    while (further != "") {
        put(substr(further, 1, index(further, "0\n")))
        further = substr(further, index(further, "0\n") + 2)
        m++
    }
    for (i = 0; i < 2 ^ d; i++) put("a " path(i, d) "0")
    say("t " 2 ^ d " 0 1152921504606846976")
}
# One step that adds the empty clause, for a target at depth d: its units, then these clauses.
function step(d, clauses,    u, text) {
    text = (m + d + 1) " 0"
    for (u = m + 1; u <= m + d; u++) text = text " " u
    put(text " " clauses " 0")
}
function end(weight) {
    say("w " weight)
    say("s " (weight == "0" ? "REFUTED" : "OPEN"))
}
# Two clauses that refute node i at depth d, and no node above it.
function pair(i, d) { return against(i, d) "200 0\n" against(i, d) "-200 0\n" }
'

# Makes a bundle and its report, $here/in and $here/wanted.
make() {
    rm -f "$here/in" "$here/wanted"
    awk -v bundle="$here/in" -v report="$here/wanted" -v folder="$here/proofs" "$functions BEGIN { $1 }"
}

# Runs the bundle that was made with each setting: its name, and `zero` or `one`, the status.
try() {
    for words in "--workers 4 --cut 3" "--workers 32 --cut 6" "--workers 32 --cut 0" "--workers 2 --cut 1"; do
        run "$here/in" $words
        compare "$1 with $words" "$here/wanted" "$here/none" "$here/$2"
    done
}

make 'whole(3)
    for (i = 1; i <= 8; i++) say("a " i " open")
    say("o 0"); end("1152921504606846976")'
try "no section" one
make 'whole(3); put("l 5"); step(3, "5")
    for (i = 1; i <= 8; i++) say("a " i (i == 5 ? " refuted" : " open"))
    say("o 1 0\no -1 2 -3 0\no -1 -2 0"); end("1008806316530991104")'
try "one section" one
make 'whole(3)
    put("l 8"); step(3, "8"); put("l 2"); step(3, "2"); put("l 5"); step(3, "5")
    for (i = 1; i <= 8; i++) say("a " i (i % 3 == 2 ? " refuted" : " open"))
    say("o 1 2 3 0\no 1 -2 0\no -1 2 -3 0\no -1 -2 3 0"); end("720575940379279360")'
try "three sections" one
# The sections of the first 500 leaves, in steps of seven. Open are a node of four leaves and one of eight.
make 'whole(9)
    for (i = 0; i < 500; i++) { put("l " 7 * i % 500 + 1); step(9, 7 * i % 500 + 1) }
    for (i = 1; i <= 512; i++) say("a " i (i <= 500 ? " refuted" : " open"))
    say("o -1 -2 -3 -4 -5 6 -7 0\no -1 -2 -3 -4 -5 -6 0"); end("27021597764222976")'
try "500 sections" one
# Of four leaves, the last ones first: the fourth has no proof, the third that of the fourth, whose clause leaves one literal, the
# second that of the third, whose clause leaves two, and the first its own.
make 'whole(9)
    for (i = 511; i >= 0; i--) if (i % 4 != 3) { put("l " i + 1); step(9, i % 4 ? i + 2 : i + 1) }
    split(" refuted, rejected 1 unit, rejected 1 empty, open", status, ",")
    for (i = 0; i < 512; i++) say("a " i + 1 status[i % 4 + 1])
    for (i = 0; i < 512; i += 4) say("o " path(i + 1, 9) "0\no " path(i / 2 + 1, 8) "0")
    end("864691128455135232")'
try "each fourth leaf refuted" one
make 'put("p inccnf\n1 2 0")
    for (i = 0; i < 4096; i++) put("a " path(i, 12) "0")
    for (i = 1; i <= 4096; i++) put("l " i (i % 3 > 1 ? "" : i % 3 ? "\nx 0" : "\n14 0 15 0"))
    say("t 4096 0 1152921504606846976")
    for (i = 1; i <= 4096; i++) say("a " i " rejected 1 " (i % 3 > 1 ? "end" : i % 3 ? "unreadable" : "hint"))
    say("o 0"); end("1152921504606846976")'
try "4,096 sections that are rejected" one
cp "$here/in" "$here/great.in"
cp "$here/wanted" "$here/great.out"
# Cubes that all begin with 1 2 3 4 5 6, and six missing leaves beside that path; then with proofs for these too, before the cubes.
one_part='put("p inccnf")
    for (i = 0; i < 64; i++) put(against(i, 12) "0")
    for (d = 6; d > 0; d--) put(against(1, d) "0")
    m = 70
    for (i = 0; i < 64; i++) put("a " path(i, 12) "0")
    if (missing) for (d = 1; d <= 6; d++) { put("l m" 7 - d); step(d, 71 - d) }
    for (i = 0; i < 64; i++) { put("l " i + 1); step(12, i + 1) }
    say("t 64 6 1152921504606846976")
    for (i = 1; i <= 64; i++) say("a " i " refuted")
    for (d = 6; d > 0; d--) say("m " 7 - d " " path(1, d) "0 " (missing ? "refuted" : "open"))
    if (!missing) for (d = 6; d > 0; d--) say("o " path(1, d) "0")
    end(missing ? "0" : "1134907106097364992")'
make "missing = 0; $one_part"
try "all sections under one part" one
make "missing = 1; $one_part"
try "all cubes under one part, and the missing leaves" zero
# A proof for the root, before leaf 0, 64 or behind the last, where each second leaf has no proof; and one that is empty, where each has.
root_proof='whole(7, pair(0, 0))
    for (i = 0; i <= 128; i++) {
        if (i == at) put("l n 0")
        if (i == at && refutes) step(0, "129 130")
        if (i < 128) put("l " i + 1)
        if (i < 128 && (i % 2 || !refutes)) step(7, i + 1)
    }
    for (i = 0; i < 128; i++) say("a " i + 1 (i % 2 || !refutes ? " refuted" : " rejected 1 end"))
    say("n 0 " (refutes ? "refuted" : "rejected 1 end")); end("0")'
for at in 0 64 128; do
    make "refutes = 1; at = $at; $root_proof"
    try "a proof for the root before leaf $at" zero
    make "refutes = 0; at = $at; $root_proof"
    try "an empty proof for the root before leaf $at" zero
done
# A proof for the first node at each depth, among empty ones for all leaves.
while read -r depth weight status; do
    make "d = $depth; weight = \"$weight\""'; whole(7, pair(0, d))
        for (i = 1; i <= 64; i++) put("l " i)
        put("l n " path(0, d) "0"); step(d, "129 130")
        for (i = 65; i <= 128; i++) put("l " i)
        for (i = 1; i <= 128; i++) say("a " i " rejected 1 end")
        say("n " path(0, d) "0 refuted")
        for (; d > 0; d--) say("o " path(1, d) "0")
        end(weight)'
    try "a proof for a node at depth $depth" "$status"
done << DEPTHS
0 0 zero
1 576460752303423488 one
2 864691128455135232 one
3 1008806316530991104 one
4 1080863910568919040 one
5 1116892707587883008 one
6 1134907106097364992 one
DEPTHS
# Proofs for the first nodes at the depths 6 to 1, each under the next.
make 'for (d = 1; d <= 6; d++) pairs = pairs pair(0, d)
    whole(7, pairs)
    for (d = 6; d > 0; d--) { put("l n " path(0, d) "0"); step(d, 127 + 2 * d " " 128 + 2 * d) }
    for (i = 1; i <= 128; i++) put("l " i)
    for (i = 1; i <= 128; i++) say("a " i " rejected 1 end")
    for (d = 1; d <= 6; d++) say("n " path(0, d) "0 refuted")
    say("o -1 0"); end("576460752303423488")'
try "proofs for nodes under each other" one
# Proofs for the nodes beside the path 1 2 3 4 5 6 and for its end: no leaf is under none of them.
make 'for (d = 1; d <= 6; d++) pairs = pairs pair(1, d)
    whole(7, pairs pair(0, 6))
    for (d = 1; d <= 6; d++) { put("l n " path(1, d) "0"); step(d, 127 + 2 * d " " 128 + 2 * d) }
    put("l n 1 2 3 4 5 6 0"); step(6, "141 142")
    for (i = 1; i <= 128; i++) say("a " i " open")
    say("n 1 2 3 4 5 6 0 refuted")
    for (d = 6; d > 0; d--) say("n " path(1, d) "0 refuted")
    end("0")'
try "proofs for nodes beside each other" zero
# One proof of 200,001 steps, all others empty: each step but its last adds a clause that holds clause 65.
make 'whole(6, "70 71 0\n")
    for (i = 1; i <= 64; i++) {
        put("l " i)
        if (i == 33) {
            for (j = 1; j <= 200000; j++) put(m + 6 + j " 70 71 " 71 + j " 0 65 0")
            put(m + 200007 " 0 66 67 68 69 70 71 33 0")
        }
        say("a " i (i == 33 ? " refuted" : " rejected 1 end"))
    }
    say("o 1 0\no -1 2 3 4 5 -6 0\no -1 2 3 4 -5 0\no -1 2 3 -4 0\no -1 2 -3 0\no -1 -2 0")
    end("1134907106097364992")'
try "one long proof" one

# A folder, by one worker and by more: 16,384 leaves, of which each third has a file.
try_folder() {
    for words in "--workers 1 --cut 0" "--workers 4 --cut 3" "--workers 32 --cut 6"; do
        run "$here/none" $words --proofs "$here/proofs" "$here/in"
        compare "$1 with $words" "$2" "$3" "$here/$4"
    done
}
printf '3\n' > "$here/three"
printf '5\n' > "$here/five"
mkdir "$here/proofs"
make 'whole(14)
    for (i = 0; i < 16384; i += 3) { bundle = folder "/" i + 1 ".lrat"; step(14, i + 1); close(bundle) }
    for (i = 1; i <= 16384; i++) say("a " i (i % 3 == 1 ? " refuted" : " open"))
    for (k = 0; k < 8192; k++)
        say("o " (2 * k % 3 == 1 ? path(k, 13) : path(2 * k + (2 * k % 3 == 0), 14)) "0")
    end("768567423908446208")'
try_folder "each third of 16,384 files" "$here/wanted" "$here/none" one
# The last file has a section more below its proof: that of leaf 2, and then one of leaf 1, which has a file of its own. In the bundle with all proofs
# each file stands below an empty line and its label line, and has one line itself.
echo "l 2
16399 0 16385 16386 16387 16388 16389 16390 16391 16392 16393 16394 16395 16396 16397 16398 2 0" >> "$here/proofs/16384.lrat"
sed -e 's/^a 2 open$/a 2 refuted/' -e '/^o 1 2 3 4 5 6 7 8 9 10 11 12 13 -14 0$/d' -e 's/^w .*/w 768497055164268544/' "$here/wanted" > "$here/more"
try_folder "a label line in the last of these files" "$here/more" "$here/none" one
echo "l 1" >> "$here/proofs/16384.lrat"
echo "cubeboard: F12 second proof, line $(($(wc -l < "$here/in") + 3 * 5461 + 6))" > "$here/twice"
try_folder "a second proof in the last of these files" "$here/none" "$here/twice" three
rm "$here/proofs/10000.lrat"
mkdir "$here/proofs/10000.lrat"
try_folder "a file that can't be read among these" "$here/none" "$here/device" five

# A folder that changes while one worker waits at the leaf of a named pipe: what is done then, and the name of the run. The pipe has the length 0,
# so the other leaf's file is read before it where it is there, and after it where it wasn't.
printf '6 0 5 3 4 0\n' > "$here/first"
printf '6 0 5 1 2 0\n' > "$here/second"
sed '/^l/,$d' "$root/tests/rows/two_cubes_refuted.in" > "$here/cubes"
changing() {
    rm -f "$here/changing/1.lrat"
    mkfifo "$here/changing/1.lrat"
    timeout 20 sh -c 'exec 3> "$1/changing/1.lrat" && eval "$2" && cat "$1/first" >&3' sh "$here" "$1" &
    run "$here/none" --workers 1 --proofs "$here/changing" "$here/cubes"
    wait $!
    compare "$2" "$root/tests/rows/two_cubes_refuted.out" "$here/none" "$here/zero"
}
mkdir "$here/changing"
changing 'cp "$1/second" "$1/changing/2.lrat"' "a file that comes before its leaf's turn"
changing 'echo x > "$1/changing/2.lrat"' "a file that changes behind its leaf's turn"
cp "$here/second" "$here/changing/2.lrat"
changing 'rm "$1/changing/2.lrat"' "a file that goes behind its leaf's turn"

# From here on, runs by four workers whose standard streams fail: a bundle that is refuted, one with a long report and one with a fault.
small=$root/tests/rows/two_cubes_refuted
great=$here/great
faulty=$root/tests/rows/second_section_of_a_cube
words="--workers 4 --cut 3"

# Whether the last run has a status and an error line, both as files, and its output is so many bytes of a report: the number, a file.
has_left() {
    cmp -s "$here/status" "$1" && cmp -s "$here/err" "$2" && head -c "$3" "$4" | cmp -s - "$here/out"
}
printf '2\n' > "$here/two"
length() { wc -c < "$1"; }

# A full device for the report, for the error, and for both.
if [ -w /dev/full ]; then
    for input in "$small.in" "$great.in"; do
        : > "$here/out"
        timeout 60 "$program" $words < "$input" > /dev/full 2> "$here/err"
        echo $? > "$here/status"
        has_left "$here/five" "$here/device" 0 "$here/none"
        count "a full device for $(basename "$input")" $?
        : > "$here/err"
        timeout 60 "$program" $words < "$input" > /dev/full 2> /dev/full
        echo $? > "$here/status"
        has_left "$here/five" "$here/none" 0 "$here/none"
        count "a full device for $(basename "$input") and for the error" $?
    done
    : > "$here/err"
    timeout 60 "$program" $words < "$faulty.in" > "$here/out" 2> /dev/full
    echo $? > "$here/status"
    has_left "$here/three" "$here/none" 0 "$here/none"
    count "a full device for the line of a fault" $?
    timeout 60 "$program" --help < /dev/null > "$here/out" 2> /dev/full
    echo $? > "$here/status"
    has_left "$here/two" "$here/none" 0 "$here/none"
    count "a full device for the help" $?
else
    skip "a full device" "there is none here"
fi

# Runs with a device on descriptor $1 that takes at most $2 bytes at each write (all, where $2 is 0), and fails with the error $4 at the
# write $3; $5 is the input.
write_with() {
    rm -f "$here/mark"
    timeout 60 env WRITE_FILE="$1" WRITE_SHORT="$2" WRITE_FAILS="$3" WRITE_ERROR="$4" WRITE_MARK="$here/mark" \
        LD_PRELOAD="$here/device.so" "$program" $words < "$5" > "$here/out" 2> "$here/err"
    echo $? > "$here/status"
}

# Each write of a report fails in turn, until there are no more: how many bytes a write takes, and the error. What the writes before took
# is there.
each_write_fails() {
    n=1
    while [ "$n" -le 1000 ]; do
        write_with 1 "$1" "$n" "$2" "$small.in"
        [ -f "$here/mark" ] || break
        has_left "$here/five" "$here/device" $(($1 * (n - 1))) "$small.out"
        count "$2 at write $n of $1 bytes" $?
        n=$((n + 1))
    done
    [ $((n - 1)) -eq $((($(length "$small.out") + $1 - 1) / $1)) ] \
        && has_left "$small.status" "$here/none" "$(length "$small.out")" "$small.out"
    count "the whole report by $((n - 1)) writes of $1 bytes" $?
}

# The same for the writes of a fault's line: the status and the output stay as they are.
each_write_of_the_error_fails() {
    n=1
    while [ "$n" -le 1000 ]; do
        write_with 2 "$1" "$n" "$2" "$faulty.in"
        [ -f "$here/mark" ] || break
        head -c $(($1 * (n - 1))) "$faulty.err" > "$here/line"
        has_left "$faulty.status" "$here/line" 0 "$here/none"
        count "$2 at write $n of $1 bytes of a fault's line" $?
        n=$((n + 1))
    done
    [ $((n - 1)) -eq $((($(length "$faulty.err") + $1 - 1) / $1)) ] && has_left "$faulty.status" "$faulty.err" 0 "$here/none"
    count "the whole line by $((n - 1)) writes of $1 bytes" $?
}

if preload device "the reads and writes that fail"; then
    # (a bundle that is written in one piece: no read is made in vain)
    reads=-eq
    each_read_fails "a bundle" 1 "$small.in" "$small" $words
    each_read_fails "a bundle" 7 "$small.in" "$small" $words
    read_with 1 0 "$great.in" $words
    has_left "$here/one" "$here/none" "$(length "$great.out")" "$great.out"
    count "a long bundle, byte by byte" $?
    for error in ENOSPC EINTR; do
        each_write_fails 1 "$error"
        each_write_fails 7 "$error"
        each_write_of_the_error_fails 1 "$error"
        # Without short writes a report is there at once, or not at all.
        write_with 1 0 1 "$error" "$great.in"
        has_left "$here/five" "$here/device" 0 "$here/none"
        count "$error at the first write of a long report" $?
        write_with 1 40000 2 "$error" "$great.in"
        has_left "$here/five" "$here/device" 40000 "$great.out"
        count "$error at the second write of a long report" $?
        # A report without a fault writes no error, so none fails.
        write_with 2 0 1 "$error" "$small.in"
        [ ! -f "$here/mark" ] && has_left "$small.status" "$here/none" "$(length "$small.out")" "$small.out"
        count "no write on the error's descriptor" $?
    done
    write_with 1 1 0 - "$great.in"
    has_left "$here/one" "$here/none" "$(length "$great.out")" "$great.out"
    count "a long report, byte by byte" $?
fi

# Closed descriptors. What is opened then may get their numbers, so FILE's bytes are looked at, too.
: > "$here/out"
for input in "$small.in" "$great.in"; do
    timeout 60 "$program" $words < "$input" >&- 2> "$here/err"
    echo $? > "$here/status"
    has_left "$here/five" "$here/device" 0 "$here/none"
    count "$(basename "$input") and no standard output" $?
done
timeout 60 "$program" $words <&- > "$here/out" 2> "$here/err"
echo $? > "$here/status"
has_left "$here/five" "$here/device" 0 "$here/none"
count "no standard input" $?
lay_out "$root/tests/rows/folder_of_proofs"
folder=$root/tests/rows/folder_of_proofs
cp "$here/run/case.icnf" "$here/case"

# Runs the program on the folder's files: what closes descriptors, a text for the shell.
run_closed() {
    : > "$here/out"
    : > "$here/err"
    (cd "$here/run" && eval "timeout 60 \"\$program\" $words --proofs proofs case.icnf $1")
    echo $? > "$here/status"
}
# Whether FILE and the proofs are as they were.
is_kept() { cmp -s "$here/case" "$here/run/case.icnf" && diff -r "$folder.proofs" "$here/run/proofs" > /dev/null; }
run_closed '<&- > "$here/out" 2> "$here/err"'
has_left "$folder.status" "$folder.err" "$(length "$folder.out")" "$folder.out" && is_kept
count "files and no standard input" $?
run_closed '< /dev/null >&- 2> "$here/err"'
has_left "$here/five" "$here/device" 0 "$here/none" && is_kept
count "files and no standard output" $?
run_closed '< /dev/null > "$here/out" 2>&-'
has_left "$folder.status" "$here/none" "$(length "$folder.out")" "$folder.out" && is_kept
count "files and no standard error" $?
run_closed '<&- >&- 2>&-'
has_left "$here/five" "$here/none" 0 "$here/none" && is_kept
count "files and no standard stream" $?
timeout 60 "$program" $words < "$faulty.in" > "$here/out" 2>&-
echo $? > "$here/status"
has_left "$faulty.status" "$here/none" 0 "$here/none"
count "a fault and no standard error" $?

# A pipe that nobody reads: its reader was this shell's, and is closed before the program starts.
mkfifo "$here/pipe"
for signal in "as it is" ignored; do
    for input in "$small.in" "$great.in"; do
        : > "$here/out"
        (
            [ "$signal" = ignored ] && trap '' PIPE
            exec 3<> "$here/pipe" 4> "$here/pipe" 3<&-
            timeout 60 "$program" $words < "$input" >&4 2> "$here/err"
            echo $? > "$here/status"
        )
        has_left "$here/five" "$here/device" 0 "$here/none"
        count "nobody reads $(basename "$input"), the signal $signal" $?
    done
    : > "$here/err"
    (
        [ "$signal" = ignored ] && trap '' PIPE
        exec 3<> "$here/pipe" 4> "$here/pipe" 3<&-
        timeout 60 "$program" $words < "$faulty.in" > "$here/out" 2>&4
        echo $? > "$here/status"
    )
    has_left "$faulty.status" "$here/none" 0 "$here/none"
    count "nobody reads the line of a fault, the signal $signal" $?
    # Readers that go after no byte and after ten, where the report is longer than what a pipe holds.
    for taken in 0 10; do
        rm -f "$here/status"
        (
            [ "$signal" = ignored ] && trap '' PIPE
            timeout 60 "$program" $words < "$great.in" 2> "$here/err"
            echo $? > "$here/status"
        ) | head -c "$taken" > "$here/out"
        has_left "$here/five" "$here/device" "$taken" "$great.out"
        count "a reader of $taken bytes of a long report, the signal $signal" $?
    done
done
finish
