#!/bin/sh
# Runs the built program with --explain. Each row of tests/rows and each example gives the same
# report, status, record, picture and log without and with it, and the same standard error but for
# lines that begin with `explain: `. So do runs on pipes, and no run with --explain changes a file.
# Then what the lines say: of what was read, of a folder, of proofs that are rejected, and of what a
# fault comes from. What is wanted was worked out from docs/FORMATS.md and the files that are made
# here, never from the program. The last line counts.
root=$(CDPATH= cd -- "$(dirname -- "$0")/.." && pwd) || exit 1
. "$root/scripts/runs.sh"
build_program

# What lies in $here/run: kinds, names, links, and the digests of plain files.
names() {
    (cd "$here/run" && find . -printf '%y %p %l\n' && find . -type f -exec sha256sum {} +) | sort
}

# The same with sizes and times, which a run that changes nothing leaves as they are.
state() {
    (cd "$here/run" && find . -printf '%s %T@ %p\n') | sort
    names
}

# Keeps what the last run has printed, as that of one without --explain.
keep_plain() {
    for it in out err status; do mv "$here/$it" "$here/plain.$it"; done
}

# Whether the last run, which was with --explain, has printed the same.
is_plain() {
    grep -v '^explain: ' "$here/err" > "$here/rest"
    cmp -s "$here/out" "$here/plain.out" && cmp -s "$here/rest" "$here/plain.err" &&
        cmp -s "$here/status" "$here/plain.status"
}

# The lines of a log in a folder in one order: those of a bundle that is judged while it is read stand
# in the bundle's. If the bundle has a fault, there may be lines of what stands above it.
order_log() {
    [ ! -f "$1/told.log" ] || sort -o "$1/told.log" "$1/told.log"
    [ "$(cat "$here/status")" -ne 3 ] || rm -f "$1/told.log"
}

# Each row, with a record, a picture, and, with one worker, a log.
for input in "$root"/tests/rows/*.in; do
    base=${input%.in}
    set -- --record told.record --map told.svg
    has_settings "$base" || set -- "$@" --workers 1 --log told.log
    lay_out "$base"
    with_words "$base" run "$input" "$@"
    keep_plain
    rm -rf "$here/plain"
    mv "$here/run" "$here/plain"
    lay_out "$base"
    with_words "$base" run "$input" "$@" --explain
    order_log "$here/run"
    order_log "$here/plain"
    is_plain && diff -r "$here/run" "$here/plain" > "$here/files" &&
        cmp -s "$here/out" "$base.out" && cmp -s "$here/rest" "$base.err" &&
        cmp -s "$here/status" "$base.status"
    count "$(basename "$base") with --explain" $?
done

# Each example as a bundle: the status is left to scripts/rows.sh.
for report in "$root"/examples/*.report; do
    example=${report%.report}
    [ -f "$example.icnf" ] || continue
    run "$example.icnf" --explain
    cmp -s "$here/out" "$report" && ! grep -q -v '^explain: ' "$here/err"
    count "$(basename "$example") with --explain" $?
done

# Makes $here/run anew with a bundle, case.icnf, and a folder, proofs: the bundle's text.
with_bundle() {
    rm -rf "$here/run"
    mkdir -p "$here/run/proofs"
    printf "$1" > "$here/run/case.icnf"
}

# Makes a file in $here/run: its name and its text.
make() {
    printf "$2" > "$here/run/$1"
}

# The last run told these lines, which stand on the input, and no other that begins with
# `explain: `: the claim, and the status. `*` stands for any text.
told() {
    sed 's/[][\.^$]/\\&/g; s/\*/.*/g' > "$here/wanted"
    grep '^explain: ' "$here/err" | sed 's/^explain: //' > "$here/lines"
    [ "$(cat "$here/status")" -eq "$2" ] &&
        [ "$(wc -l < "$here/wanted")" -eq "$(wc -l < "$here/lines")" ] &&
        paste "$here/wanted" "$here/lines" | while IFS="$(printf '\t')" read -r wanted line; do
            expr "x$line" : "x$wanted\$" > /dev/null || exit 1
        done
    count "$1" $?
}

# What was read. A cube that is written without its `a` is a clause, which the number of clauses
# shows.
tree='p inccnf\n1 2 0\n1 -2 0\n-1 0\na 3 0\na -3 0\n'
digest=$(printf "$tree" | sha256sum | cut -d ' ' -f 1)
with_bundle "$tree"
run "$here/none" --explain case.icnf
told "what was read" 1 << TOLD
case.icnf: clauses: 3; literals: 5; greatest variable: 2
SHA-256 of formula and cubes: $digest
case.icnf: cubes: 2; branches without a cube: 0
proofs judged: for leaves: 0, for inner nodes: 0
TOLD
with_bundle 'p inccnf\n1 2 0\n1 -2 0\n-1 0\n3 0\n'
run "$here/run/case.icnf" --explain
told "a cube without its a" 1 << TOLD
standard input: clauses: 4; literals: 6; greatest variable: 3
SHA-256 of formula and cubes: *
standard input: cubes: 0; branches without a cube: 1
standard input: a cube begins with "a"; a line without it is a clause
proofs judged: for leaves: 0, for inner nodes: 0
TOLD
with_bundle 'a 3 0\n'
printf 'c\np cnf 2 2\n1 0\n-1 0\n' > "$here/run/formula.cnf"
run "$here/none" --explain --formula formula.cnf case.icnf
told "what was read of two files" 1 << TOLD
formula.cnf: clauses: 2; literals: 2; greatest variable: 1
SHA-256 of formula and cubes: *
case.icnf: cubes: 1; branches without a cube: 1
proofs judged: for leaves: 0, for inner nodes: 0
TOLD

# Words on the header's line are ignored, which is all of a text whose lines end with CR alone. A CR
# before the LF is none of a word.
with_bundle 'c\np inccnf\r1 2 0\r-1 0\r'
run "$here/none" --explain case.icnf
told "a text whose lines end with CR alone" 1 << 'TOLD'
case.icnf: clauses: 0; literals: 0; greatest variable: 0
case.icnf, line 2: words behind p inccnf, which are ignored: 5
case.icnf, line 2: the line has CR bytes in it, but only LF ends a line
SHA-256 of formula and cubes: *
case.icnf: cubes: 0; branches without a cube: 1
case.icnf: a cube begins with "a"; a line without it is a clause
proofs judged: for leaves: 0, for inner nodes: 0
TOLD
with_bundle 'p inccnf 3 2\r\n1 0\r\n'
run "$here/none" --explain case.icnf
told "two words behind the header" 1 << 'TOLD'
case.icnf: clauses: 1; literals: 1; greatest variable: 1
case.icnf, line 1: words behind p inccnf, which are ignored: 2
SHA-256 of formula and cubes: *
case.icnf: cubes: 0; branches without a cube: 1
case.icnf: a cube begins with "a"; a line without it is a clause
proofs judged: for leaves: 0, for inner nodes: 0
TOLD
with_bundle 'p inccnf\r\n1 0\r\n'
run "$here/none" --explain case.icnf
told "lines that end with CR and LF" 1 << 'TOLD'
case.icnf: clauses: 1; literals: 1; greatest variable: 1
SHA-256 of formula and cubes: *
case.icnf: cubes: 0; branches without a cube: 1
case.icnf: a cube begins with "a"; a line without it is a clause
proofs judged: for leaves: 0, for inner nodes: 0
TOLD

# A folder: without a file, with files that name no leaf, with links, and one that isn't there. What
# is told of it is $here/wanted: the claim.
folder_told() {
    grep -e '^explain: proofs: ' -e '^explain: nowhere: ' "$here/err" | sed 's/^explain: //' |
        cmp -s - "$here/wanted" && [ "$(cat "$here/status")" -eq 1 ]
    count "$1" $?
}
with_bundle "$tree"
run "$here/none" --explain --proofs proofs case.icnf
cat > "$here/wanted" << 'TOLD'
proofs: files that are proofs of leaves: 0
TOLD
folder_told "an empty folder"
for name in 1.lrat 010.lrat 2.lrat.txt m1.lrat 3.lrat 0.lrat; do make "proofs/$name" ''; done
run "$here/none" --explain --proofs proofs case.icnf
cat > "$here/wanted" << 'TOLD'
proofs: files that are proofs of leaves: 1
proofs: files that name no leaf: 5: "0.lrat" "010.lrat" "2.lrat.txt" "3.lrat" "m1.lrat"
TOLD
folder_told "files that name no leaf"
with_bundle "$tree"
make elsewhere ''
ln -s nowhere "$here/run/proofs/1.lrat"
ln -s ../elsewhere "$here/run/proofs/2.lrat"
ln -s nowhere "$here/run/proofs/7.lrat"
mkfifo "$here/run/proofs/3.lrat"
: > "$here/run/proofs/$(printf 'd\ncubeboard: F2\033[31m\377.lrat')"
run "$here/none" --explain --proofs proofs case.icnf
cat > "$here/wanted" << 'TOLD'
proofs: files that are proofs of leaves: 1
proofs: links to files that aren't there: 1: "1.lrat"
proofs: files that name no leaf: 3: "3.lrat" "7.lrat" "d\ncubeboard: F2\x1b[31m\xff.lrat"
TOLD
folder_told "links and a name that isn't printable"
! grep -q -v '^explain: ' "$here/err"
count "no name makes a line of its own" $?
run "$here/none" --explain --proofs nowhere case.icnf
echo 'nowhere: there is no such folder, so no proof is added' > "$here/wanted"
folder_told "a folder that isn't there"

# Rejected proofs: the step, where it stands, and what the file looks like.
with_bundle "$tree"'l 1\nc a comment\n5 0 1 2 0\n'
printf '\037\213\010' > "$here/run/proofs/2.lrat"
run "$here/none" --explain --proofs proofs case.icnf
told "a proof in the bundle and a packed one in the folder" 1 << TOLD
case.icnf: clauses: 3; *
SHA-256 *
case.icnf: cubes: 2; branches without a cube: 0
proofs: files that are proofs of leaves: 1
proofs judged: for leaves: 2, for inner nodes: 0
proof for 1: step 1 is rejected: case.icnf, line 9: "5 0 1 2 0"
a clause that a hint names still has two or more literals*; look for *
proof for 2: step 1 is rejected: proofs/2.lrat, line 1: "\\x1f\\x8b\\x08"
proofs/2.lrat: it looks like gzip: unpack it first
what stands there is no whole step*; look for *
TOLD

with_bundle "$tree"
printf 'o 1  1 0\na 5  0 l 1 2 0\n' > "$here/run/proofs/1.lrat"
run "$here/none" --explain --proofs proofs case.icnf
told "a proof in FRAT" 1 << TOLD
case.icnf: clauses: 3; *
SHA-256 *
case.icnf: cubes: 2; branches without a cube: 0
proofs: files that are proofs of leaves: 1
proofs judged: for leaves: 1, for inner nodes: 0
proof for 1: step 1 is rejected: proofs/1.lrat, line 1: "o 1  1 0"
proofs/1.lrat: it looks like FRAT*(CaDiCaL: --lrat)
what stands there is no whole step*; look for *
TOLD

# A binary proof of the folder is told by its step as text: here by an addition of the empty clause,
# 5 0 1 9 0, and one whose first id isn't doubled.
with_bundle "$tree"
printf 'a\012\0\002\022\0' > "$here/run/proofs/1.lrat"
printf 'a\005\0\002\004\0' > "$here/run/proofs/2.lrat"
run "$here/none" --explain --proofs proofs case.icnf
told "binary proofs in the folder" 1 << 'TOLD'
case.icnf: clauses: 3; *
SHA-256 *
case.icnf: cubes: 2; branches without a cube: 0
proofs: files that are proofs of leaves: 2
proofs judged: for leaves: 2, for inner nodes: 0
proof for 1: step 1 is rejected: proofs/1.lrat, binary LRAT: "5 0 1 9 0"
proofs/1.lrat: CaDiCaL 1.7 doesn't double the ids of binary steps: have it write text (--no-binary)
*; look for *
proof for 2: step 1 is rejected: proofs/2.lrat, binary LRAT: "-2 0 1 2 0"
proofs/2.lrat: CaDiCaL 1.7 doesn't double the ids of binary steps: have it write text (--no-binary)
what stands there is no whole step*; look for *
TOLD

# With --formula the lines of a section are those of the file that has it, not the bundle's; a label
# may have zeros in front, and so may a step's end mark.
with_bundle ''
make formula.cnf 'c\np cnf 2 2\n1 0\n-1 0\n'
make cubes 'c\na 3 0\na -3 0\nl 02\n4 3 00 1 2 0\nc\n5 0 9 0\n'
run "$here/none" --explain --formula formula.cnf cubes
told "a section below a formula" 1 << 'TOLD'
formula.cnf: clauses: 2; literals: 2; greatest variable: 1
SHA-256 of formula and cubes: *
cubes: cubes: 2; branches without a cube: 0
proofs judged: for leaves: 1, for inner nodes: 0
proof for 2: step 2 is rejected: cubes, line 7: "5 0 9 0"
a hint names a clause that isn't live; look for *
TOLD

# The report stands before what is told of it.
note "$here/none" sh -c '"$0" "$@" 2>&1' "$program" --explain --formula formula.cnf cubes
awk '/^s OPEN$/ { report = NR }
    /^explain: proof for 2/ { proof = NR }
    END { exit !(report && report < proof) }' "$here/out"
count "the report before its rejections" $?

# Sections behind a long one, in another order than that of the report, and one for an inner node.
with_bundle "$tree"
{
    echo 'l 2'
    awk 'BEGIN { for (i = 0; i < 20000; i++) print "c a line that is no step" }'
    printf '5 0 9 0\nl n 0\nc\n\n5 0 1\n0\nl 1\n5 0 1 2 3 0\n'
} >> "$here/run/case.icnf"
run "$here/none" --explain case.icnf
told "sections behind a long one" 1 << 'TOLD'
case.icnf: clauses: 3; *
SHA-256 *
case.icnf: cubes: 2; branches without a cube: 0
proofs judged: for leaves: 2, for inner nodes: 1
proof for 1: step 1 is rejected: case.icnf, line 20015: "5 0 1 2 3 0"
*; look for *
proof for 2: step 1 is rejected: case.icnf, line 20008: "5 0 9 0"
a hint names a clause that isn't live; look for *
proof for n 0: step 1 is rejected: case.icnf, line 20012: "5 0 1"
*; look for *
TOLD

# A section of 30 MB that is rejected at its end: neither the run of one worker nor what is told of
# it holds it.
measured_program
with_bundle "$tree"
{
    echo 'l 1'
    awk 'BEGIN { for (i = 0; i < 1500000; i++) print "6 1 0 1 2 0\n6 d 6 0" }'
    echo '5 0 9 0'
} >> "$here/run/case.icnf"
echo none > "$here/peak"
program=$here/measured
run "$here/none" --workers 1 --explain case.icnf
program=$built
told "a section of 30 MB" 1 << 'TOLD'
case.icnf: clauses: 3; *
SHA-256 *
case.icnf: cubes: 2; branches without a cube: 0
proofs judged: for leaves: 1, for inner nodes: 0
proof for 1: step 3000001 is rejected: case.icnf, line 3000008: "5 0 9 0"
a hint names a clause that isn't live; look for *
TOLD
[ "$(cat "$here/peak")" -le 20 ] 2> /dev/null
count "a section of 30 MB: at most 20 MB in memory, and not $(cat "$here/peak")" $?

# One proof of the formula: of a text its line, of a binary proof its step, and of the input neither.
# The claim, LRAT, what that is called, and what is told of its step behind the name.
one_proof() {
    run "$here/run/input" --explain --formula formula.cnf --proof "$2"
    told "$1" 1 << TOLD
formula.cnf: clauses: 2; *
SHA-256 *
$3: cubes: 1; branches without a cube: 0
proofs judged: for leaves: 1, for inner nodes: 0
proof for 1: step 1 is rejected: $3$4
a hint names a clause that isn't live; look for *
TOLD
}
make formula.cnf 'c\np cnf 2 2\n1 2 0\n-1 0\n'
make input ''
make proof.lrat 'c\n\n3 0 9 0\n'
one_proof "one proof of the formula" proof.lrat proof.lrat ', line 3: "3 0 9 0"'
make proof.lrat 'a\006\0\022\0'
one_proof "one binary proof of the formula" proof.lrat proof.lrat ', binary LRAT: "3 0 9 0"
proof.lrat: CaDiCaL 1.7 doesn'"'"'t double the ids of binary steps: have it write text (--no-binary)'
mv "$here/run/proof.lrat" "$here/run/input"
one_proof "one proof of the input" - "standard input" ": can't be read again"

# Where a fault comes from: a proof's first bytes, and the claim, the lines and the bundle.
from() {
    told "$1" 3
}
with_bundle 'c\np cnf 3 3\n1 0\n'
run "$here/none" --explain case.icnf
from "a DIMACS header" << 'TOLD'
case.icnf, line 2: "p cnf 3 3"
case.icnf: it looks like a formula in DIMACS: *; a bundle begins with p inccnf
TOLD
with_bundle 'p inccnf\n1 0\n%%\n0\n'
run "$here/none" --explain case.icnf
from "a trailer" << 'TOLD'
case.icnf, line 3: "%"
files of SATLIB end so: cut them off from this line on
TOLD
with_bundle 'c\na 3 0\na -3 0\n'
run "$here/none" --explain case.icnf
from "cubes without a formula" << 'TOLD'
case.icnf, line 2: "a 3 0"
case.icnf: it looks like cubes: name the formula by --formula; a bundle begins with p inccnf
TOLD
with_bundle 'p inccnf\na 3 1 0\na 3 -1 0\na 1 0\n'
run "$here/none" --explain case.icnf
from "cubes of two trees" << 'TOLD'
case.icnf, line 2: "a 3 1 0"
case.icnf, line 4: "a 1 0"
the cubes agree on 0 literals; then one has "3", the other "1"
each cube has to have its literals in the order of its splits
TOLD
with_bundle "$tree"
printf '4 0 1 2 0\nl blank\n' > "$here/run/proofs/2.lrat"
run "$here/none" --explain --proofs proofs case.icnf
[ "$(tail -n 3 "$here/err" | head -n 1)" = "cubeboard: F10 bad label, line 10" ] &&
    [ "$(cat "$here/status")" -eq 3 ] &&
    [ "$(tail -n 2 "$here/err" | head -n 1)" = 'explain: proofs/2.lrat, line 2: "l blank"' ]
count "a label line in a proof" $?
with_bundle 'a 3 0\n1 0\n'
printf 'p cnf 2 1\n1 2 0\n' > "$here/run/formula.cnf"
run "$here/none" --explain --formula formula.cnf case.icnf
from "a clause beside the formula's" << 'TOLD'
formula.cnf: clauses: 2; *
SHA-256 *
case.icnf: cubes: 1; *
formula.cnf, line 1: "p cnf 2 1"
case.icnf, line 2: "1 0"
this is a clause; a cube begins with "a"
TOLD
printf 'p inccnf\n1 2 0\n' > "$here/run/formula.cnf"
run "$here/none" --explain --formula formula.cnf case.icnf
from "a formula that is no DIMACS text" << 'TOLD'
formula.cnf, line 1: "p inccnf"
formula.cnf: it looks like iCNF; a formula begins with p cnf V C
TOLD
with_bundle 'a 3 0\n-x 0\n'
printf 'p cnf 2 1\n1 2 0\n' > "$here/run/formula.cnf"
run "$here/none" --explain --formula formula.cnf case.icnf
from "a fault behind the formula" << 'TOLD'
case.icnf, line 2: "-x 0"
TOLD
with_bundle 'p inccnf\n1 0\na 1\nl 1\n2 0 1 0\n'
run "$here/none" --explain case.icnf
from "a text that ends inside a cube, above a section" << 'TOLD'
case.icnf, line 3: "a 1"
TOLD
with_bundle 'p inccnf a a\na 1 2 0 a\n3 0\n'
run "$here/none" --explain case.icnf
from "cubes below a header with other words" << 'TOLD'
case.icnf, line 2: "a 1 2 0 a"
case.icnf, line 2: "a 1 2 0 a"
each cube has to have its literals in the order of its splits
TOLD

# With --formula each line is told as its own file's: the formula's, and the other's, whose first
# line is a comment.
below() {
    with_bundle ''
    make formula.cnf 'c\np cnf 2 2\n1 0\n-1 0\n'
    make cubes "$2"
    run "$here/none" --explain --formula formula.cnf cubes
    from "$1 below a formula"
}
below "a token" 'c\na 1 x 0\n' << 'TOLD'
cubes, line 2: "a 1 x 0"
TOLD
below "a large variable" 'c\n\na 268435456 0\n' << 'TOLD'
cubes, line 3: "a 268435456 0"
TOLD
below "an unfinished cube" 'c\na 1\nc\n' << 'TOLD'
cubes, line 2: "a 1"
TOLD
below "a cube that repeats" 'c\na 1 0\na -1 0\na 1 0\n' << 'TOLD'
cubes, line 4: "a 1 0"
TOLD
below "cubes of two trees" 'c\na 1 2 0\na 3 0\n' << 'TOLD'
cubes, line 2: "a 1 2 0"
cubes, line 3: "a 3 0"
the cubes agree on 0 literals; then one has "1", the other "3"
each cube has to have its literals in the order of its splits
TOLD
below "cubes that overlap" 'c\na 1 2 0\na 1 0\n' << 'TOLD'
cubes, line 2: "a 1 2 0"
cubes, line 3: "a 1 0"
the second is the beginning of the first
each cube has to have its literals in the order of its splits
TOLD
below "a bad label" 'c\na 1 0\nl x\n' << 'TOLD'
formula.cnf: clauses: 2; *
SHA-256 *
cubes: cubes: 1; *
cubes, line 3: "l x"
TOLD
below "a label of no leaf" 'a 1 0\na -1 0\nl 3\n' << 'TOLD'
formula.cnf: clauses: 2; *
SHA-256 *
cubes: cubes: 2; *
cubes, line 3: "l 3"
TOLD
below "a second label" 'a 1 0\na -1 0\nl 1\nl 1\n' << 'TOLD'
formula.cnf: clauses: 2; *
SHA-256 *
cubes: cubes: 2; *
cubes, line 4: "l 1"
TOLD
below "a clause behind a cube of two lines" 'c\na 1\n2 0\n1 0\n' << 'TOLD'
formula.cnf: clauses: 3; *
SHA-256 *
cubes: cubes: 1; *
formula.cnf, line 2: "p cnf 2 2"
cubes, line 4: "1 0"
this is a clause; a cube begins with "a"
TOLD
# A fault of the formula's file comes before the other is read, which isn't blamed.
above() {
    with_bundle ''
    make formula.cnf "$2"
    make cubes '1 0\nx\n'
    run "$here/none" --explain --formula formula.cnf cubes
    from "$1 in a formula"
}
above "a token" 'p cnf 2 1\n1 x 0\n' << 'TOLD'
formula.cnf, line 2: "1 x 0"
TOLD
above "an unfinished clause" 'p cnf 2 1\n1\n' << 'TOLD'
formula.cnf, line 2: "1"
TOLD
above "another number of clauses" 'p cnf 2 3\n1 0\n' << 'TOLD'
formula.cnf, line 1: "p cnf 2 3"
TOLD

# Pipes give what they have once. A run without --explain and one with it leave the same, and what
# is told blames no other file: the claim, the pipe's path and its text, and the words. The input of
# both runs is $here/in.
once() {
    claim=$1
    pipe=$2
    text=$3
    shift 3
    mkfifo "$here/run/$pipe"
    as_other="timeout 20"
    for explain in "" --explain; do
        (cd "$here/run" && exec timeout 20 sh -c 'printf "$1" > "$0"' "$pipe" "$text") &
        feeder=$!
        run "$here/in" $explain "$@"
        { kill "$feeder" && wait "$feeder"; } 2> /dev/null
        [ -n "$explain" ] || { keep_plain && names > "$here/plain.names"; }
    done
    as_other=
    is_plain && names | cmp -s - "$here/plain.names"
    count "$claim, without and with --explain" $?
}
: > "$here/in"
dimacs='c\np cnf 2 2\n1 0\n-1 0\n'
with_bundle "$tree"
once "a rejected proof in a pipe" proofs/1.lrat 'c\n5 0 9 0\n' --proofs proofs case.icnf
told "a rejected proof in a pipe" 1 << 'TOLD'
case.icnf: clauses: 3; *
SHA-256 *
case.icnf: cubes: 2; *
proofs: files that are proofs of leaves: 1
proofs judged: for leaves: 1, for inner nodes: 0
proof for 1: step 1 is rejected: proofs/1.lrat: can't be read again
a hint names a clause that isn't live; look for *
TOLD
with_bundle "$tree"
once "a label line in a pipe" proofs/1.lrat 'l 1\n' --proofs proofs case.icnf
told "a label line in a pipe" 5 << 'TOLD'
case.icnf: clauses: 3; *
SHA-256 *
case.icnf: cubes: 2; *
proofs: files that are proofs of leaves: 1
proofs/1.lrat: can't be read again
no cause is seen: *
TOLD
with_bundle ''
once "a bundle in a pipe" bundle "$tree"'l 1\n5 0 9 0\n' bundle
told "a rejected proof in a bundle in a pipe" 1 << 'TOLD'
bundle: clauses: 3; *
SHA-256 *
bundle: cubes: 2; *
proofs judged: for leaves: 1, for inner nodes: 0
proof for 1: step 1 is rejected: bundle: can't be read again
a hint names a clause that isn't live; look for *
TOLD
with_bundle ''
once "a label of no leaf in a pipe" bundle "$tree"'l 1\nc\nl 3\n' bundle
told "a label of no leaf in a bundle in a pipe" 3 << 'TOLD'
bundle: clauses: 3; *
SHA-256 *
bundle: cubes: 2; *
bundle, line 9: can't be read again
TOLD
with_bundle "$tree"'l 2\nl x\n'
run "$here/run/case.icnf" --explain
told "a bad label of the input" 3 << 'TOLD'
standard input: clauses: 3; *
SHA-256 *
standard input: cubes: 2; *
standard input, line 8: can't be read again
TOLD
with_bundle ''
make cubes 'a 1 0\n'
once "a formula in a pipe" formula 'p cnf 1 1\n1 x 0\n' --formula formula cubes
told "a fault of a formula in a pipe" 3 << 'TOLD'
formula: can't be read again
TOLD
with_bundle ''
make cubes 'c\na 1 0\na 2 0\n'
once "cubes below a formula in a pipe" formula "$dimacs" --formula formula cubes
told "cubes of two trees below a formula in a pipe" 3 << 'TOLD'
cubes, line 2: "a 1 0"
cubes, line 3: "a 2 0"
the cubes agree on 0 literals; then one has "1", the other "2"
each cube has to have its literals in the order of its splits
TOLD
with_bundle ''
make formula "$dimacs"
once "cubes in a pipe below a formula" cubes 'c\na 1 x 0\n' --formula formula cubes
told "a fault of cubes in a pipe" 3 << 'TOLD'
cubes, line 2: "a 1 x 0"
TOLD
printf 'c\na 1 x 0\n' > "$here/in"
with_bundle ''
once "a formula in a pipe above the input" formula "$dimacs" --formula formula
told "a fault of the input below a formula in a pipe" 3 << 'TOLD'
formula: can't be read again
the bundle, line 7: "a 1 x 0"
TOLD
printf '1 0\n' > "$here/in"
with_bundle ''
make formula "$dimacs"
run "$here/in" --explain --formula formula
told "a clause of the input below a formula" 3 << 'TOLD'
formula: clauses: 3; *
SHA-256 *
standard input: cubes: 0; *
standard input: a cube begins with "a"; a line without it is a clause
formula, line 2: "p cnf 2 2"
standard input, line 1: "1 0"
this is a clause; a cube begins with "a"
TOLD
: > "$here/in"
with_bundle "$tree"
once "a pipe of no leaf, and no folder for the record" proofs/other.lrat '' \
    --record nowhere/x --proofs proofs case.icnf
told "a pipe of no leaf, and no folder for the record" 5 << 'TOLD'
case.icnf: clauses: 3; *
SHA-256 *
case.icnf: cubes: 2; *
proofs: files that are proofs of leaves: 0
proofs: files that name no leaf: 1: "other.lrat"
nowhere/x: No such file or directory (os error 2)
TOLD

# A device's fault: the file and the system's reason.
broken() {
    told "$1" 5
}
with_bundle "$tree"
run "$here/none" --explain no_such_file
broken "no file" << 'TOLD'
no_such_file: No such file or directory (os error 2)
TOLD
run "$here/none" --explain proofs
broken "a folder in the place of the bundle" << 'TOLD'
proofs: Is a directory (os error 21)
TOLD
run "$here/none" --explain --formula no_such_file case.icnf
broken "no formula" << 'TOLD'
no_such_file: No such file or directory (os error 2)
TOLD
# The last line that is told: the claim, and the line.
last_told() {
    [ "$(tail -n 1 "$here/err")" = "explain: $2" ] && [ "$(cat "$here/status")" -eq 5 ]
    count "$1" $?
}
run "$here/none" --explain --map nowhere/tree.svg case.icnf
last_told "a picture into a folder that isn't there" \
    'nowhere/tree.svg: No such file or directory (os error 2)'
run "$here/none" --explain --map case.icnf/tree.svg case.icnf
last_told "a picture into a file" 'case.icnf/tree.svg: Not a directory (os error 20)'
run "$here/none" --explain --log nowhere/case.log case.icnf
last_told "a log in a folder that isn't there" \
    'nowhere/case.log: No such file or directory (os error 2)'
run "$here/none" --explain "$(printf 'a\nb\033[31m')"
broken "a path that isn't printable" << 'TOLD'
"a\nb\x1b[31m": No such file or directory (os error 2)
TOLD
mkdir "$here/run/proofs/2.lrat" "$here/run/proofs/other.lrat"
run "$here/none" --explain --proofs proofs case.icnf
last_told "a folder in the place of a proof" 'proofs/2.lrat: Is a directory (os error 21)'
run "$here/none" --explain --proofs case.icnf case.icnf
last_told "a file in the place of the folder" 'case.icnf/1.lrat: Not a directory (os error 20)'
with_bundle "$tree"
no_cause='no cause is seen: a file may be read-only, a disk full, a call failed in its middle, or a file to be written is also read, by another name'
run "$here/none" --explain --record ./case.icnf case.icnf
last_told "a record over what is read" "$no_cause"
if [ -c /dev/full ]; then
    run "$here/none" --explain --record /dev/full case.icnf
    last_told "a full device" \
        "$no_cause"
else
    skip "a full device" "there is none here"
fi

# A run changes no file: after a report, a fault of the input, and one of a device.
with_bundle "$tree"'l 1\n5 0 9 0\n'
make proofs/2.lrat '5 0 9 0\n'
make cubes 'a 1 x 0\n'
make formula.cnf "$dimacs"
make case.record 'x\n'
ln -s nowhere "$here/run/proofs/link.lrat"
mkfifo "$here/run/proofs/pipe.lrat"
touch -d '2001-02-03 04:05:06' "$here/run/cubes" "$here/run/case.icnf" "$here/run/proofs"
state > "$here/before"
unchanged() {
    claim=$1
    wanted=$2
    shift 2
    run "$here/none" --explain "$@"
    [ "$(cat "$here/status")" -eq "$wanted" ] && state | cmp -s - "$here/before"
    count "no file is changed by a run with $claim" $?
}
unchanged "a report" 1 --proofs proofs case.icnf
unchanged "a fault of the input" 3 --formula formula.cnf cubes
unchanged "a fault of the folder" 3 --proofs proofs --formula formula.cnf case.icnf
unchanged "a fault of a device" 5 --record nowhere/a --proofs proofs case.icnf

# What tells has no leave to write: of its crate one file names what may, and lends what reads.
grep -l -w -e Files -e File -e OpenOptions "$root"/crates/cube_explain/src/*.rt > "$here/last"
[ "$(cat "$here/last")" = "$root/crates/cube_explain/src/files.rt" ]
count "cube_explain names no handle that writes" $?
finish
