#!/bin/sh
# Runs the built program on one proof of a formula that comes through a pipe: `--proof -` behind a
# pipe, and `--proof` with a named pipe; and on bundles that come through a pipe, with four workers,
# and through a named pipe in FILE's place, with one.
# All that is wanted of a proof is made here, by docs/FORMATS.md, and never by the program:
# - proofs that are right, text and binary, and the same cut behind each of their bytes, as the same
#   bytes in a file;
# - writers that write a byte at a time, that stop for a second in the midst, and that are killed;
# - proofs longer than a block of 64 KB, with each byte of a step at a block's end, and lines longer
#   than one block and than two;
# - label lines of each form at each place of a proof: the fault, its line, and nothing else written;
# - input that can't be read, a report that nobody reads, and each read that fails in turn, which
#   needs a C compiler: where there is none, that is skipped, or fails where CI is set;
# - the record, the picture and the log of such a run;
# - proofs of 100 MB, and a folder of as many with a label line: the program takes 64 MB of memory at
#   most.
# So it is with bundles, also in a plain file: what is wanted of them is what four workers say of the
# same bytes with a folder that isn't there, for which they hold the bundle, and read it in another
# way; tests/rows have what that has to be. And so it is with folders that have pipes.
# Above each part stands which wrong programs it is there to refuse. A run that hasn't ended after a
# minute is ended, and fails. The last line counts.
root=$(CDPATH= cd -- "$(dirname -- "$0")/.." && pwd) || exit 1
. "$root/scripts/runs.sh"
build_program
weight=1152921504606846976
writer=cat

# What FORMATS.md has of one leaf: its status as the report has it. And of a fault: its text, and the
# exit status, if it isn't 3.
judged() {
    : > "$here/wanted.err"
    if [ "$1" = refuted ]; then
        printf 't 1 0 %s\na 1 refuted\nw 0\ns REFUTED\n' "$weight" > "$here/wanted.out"
        echo 0 > "$here/wanted.status"
    else
        printf 't 1 0 %s\na 1 %s\no 0\nw %s\ns OPEN\n' "$weight" "$1" "$weight" > "$here/wanted.out"
        echo 1 > "$here/wanted.status"
    fi
}
faulty() {
    : > "$here/wanted.out"
    echo "cubeboard: $1" > "$here/wanted.err"
    echo "${2:-3}" > "$here/wanted.status"
}
compares() { compare "$1" "$here/wanted.out" "$here/wanted.err" "$here/wanted.status"; }
# What is wanted is kept as what is right.
keeps() { for it in out err status; do cp "$here/wanted.$it" "$here/right.$it"; done; }

# The three ways of a proof into the program: a file with its bytes, and further words.
by_file() {
    cp "$1" "$here/run/proof.lrat"
    shift
    run "$here/none" --formula formula.cnf --proof proof.lrat "$@"
}
fed() {
    feed=$writer
    run "$@"
    feed=
}
by_pipe() { fed "$@" --formula formula.cnf --proof -; }
# (a writer that still waits at a pipe when the program has ended is ended: no reader comes)
end_writers() {
    kill "$@" 2> /dev/null
    wait "$@" 2> /dev/null
}
named() {
    text=$1
    shift
    rm -f "$here/run/text.pipe"
    mkfifo "$here/run/text.pipe"
    { "$writer" "$text" > "$here/run/text.pipe"; } 2> /dev/null &
    run "$here/none" "$@"
    end_writers $!
}
by_fifo() { named "$@" --formula formula.cnf --proof text.pipe; }

# The proof in $here/proof by a pipe and by a named pipe, with what is wanted made before: its name,
# and further words.
piped() {
    what=$1
    shift
    by_pipe "$here/proof" "$@"
    compares "$what, by a pipe"
    by_fifo "$here/proof" "$@"
    compares "$what, by a named pipe"
}

# The bytes that are named in hexadecimal.
bytes_of() {
    for byte in "$@"; do printf "\\$(printf %03o "0x$byte")"; done
}

# How many line ends a file has, and the line of the bundle on which line K of a proof stands: above
# the proof are the formula's lines, the line that its end ends, and the two lines of the one cube.
ends_of() { tr -d -c '\n' < "$1" | wc -c; }
line_of() { echo $(($(ends_of "$here/run/formula.cnf") + 3 + $1)); }

# A proof of whole lines with exactly so many bytes, at least 50, all of whose steps are right: the
# same clause is added and deleted again and again, and a comment fills up what is left.
rounds() {
    awk -v bytes="$1" 'BEGIN {
        for (; bytes >= 50; bytes -= 20) print "5 1 0 1 2 0\n5 d 5 0"
        line = "c"
        while (length(line) < bytes - 1) line = line "x"
        print line
    }'
}
# How many steps such a proof has.
steps_of() { echo $((($1 - 30) / 20 * 2)); }
# So many blanks, and so many times the letter x.
blanks() { head -c "$1" /dev/zero | tr '\0' ' '; }
letters() { head -c "$1" /dev/zero | tr '\0' x; }

# The formula: no two signs of its two variables go together. A proof adds 1 and then the empty
# clause.
printf 'p cnf 2 4\n1 2 0\n1 -2 0\n-1 2 0\n-1 -2 0\n' > "$here/run/formula.cnf"
cp "$here/run/formula.cnf" "$here/formula"
printf '5 1 0 1 2 0\n6 0 5 3 4 0\n' > "$here/right"

# Proofs that are right. Refused are programs that take no pipe, that know a binary proof in a file
# alone, that open a named pipe twice, that print more or less than the report, and that ask for the
# length of what they read.
cp "$here/right" "$here/proof"
judged refuted
piped "a text"
piped "a text with one worker" --workers 1
piped "a text with 32 workers" --workers 32 --cut 6
printf '5 1 0 1 2 0\r\n6 0 5 3 4 0' > "$here/proof"
piped "a text with a carriage return, and without its last line end"
bytes_of 61 0a 02 00 02 04 00 61 0c 00 0a 06 08 00 > "$here/proof"
piped "a binary proof"
printf '5 1 0 1 2 0\n6 0 5 3 0\n7 0 5 3 4 0\n' > "$here/proof"
judged "rejected 2 empty"
piped "a proof that is rejected"
# (the first byte decides: here it is a line end)
{ echo && bytes_of 61 0a 02 00 02 04 00; } > "$here/proof"
judged "rejected 1 unreadable"
piped "a binary proof behind a line end"
: > "$here/proof"
judged "rejected 1 end"
piped "an empty proof"
# (the formula by a pipe, too)
cp "$here/right" "$here/proof"
mkfifo "$here/run/formula.pipe"
cat "$here/formula" > "$here/run/formula.pipe" &
judged refuted
fed "$here/proof" --formula formula.pipe --proof -
end_writers $!
compares "a formula by a named pipe and its proof by a pipe"
rm "$here/run/formula.pipe"

# Proofs cut behind each byte. Refused are programs that judge a step before it is whole, that leave
# out a last line without an end, that take a cut for a failed read, and that wait for more than the
# bytes that tell a binary proof from a text.

# The proof in $here/proof behind each of its bytes, by each way: its name. `cuts` has a line for
# each step: how many bytes it has, how many of them may stand alone as if nothing stood there, and
# how many bytes of no step come behind it. What follows the last of these steps isn't read.
cut_anywhere() {
    awk '
        { for (i = 0; i < $1; i++) print at + i, NR, i <= $2 ? "end" : "unreadable" }
        { for (i = 0; i < $3; i++) print at + $1 + i, NR + 1, "end"; at += $1 + $3 }
    ' "$here/cuts" > "$here/answers"
    whole=$(awk '{ n += $1 + $3; last = $3 } END { print n - last }' "$here/cuts")
    length=0
    bytes=$(wc -c < "$here/proof")
    while [ "$length" -le "$bytes" ]; do
        head -c "$length" "$here/proof" > "$here/cut"
        judged refuted
        if [ "$length" -lt "$whole" ]; then
            judged "rejected $(awk -v at="$length" '$1 == at { print $2, $3 }' "$here/answers")"
        fi
        for way in by_file by_pipe by_fifo; do
            "$way" "$here/cut"
            compares "$1 cut behind byte $length, $way"
        done
        length=$((length + 1))
    done
}
# An addition, a comment, a deletion, an addition over two lines, one behind a blank, and what isn't
# read. (A step's own bytes are those up to its last end mark, and the comment is of no step.)
{
    printf '5 1 0 1 2 0\nc so far: 1\n5 d 1 2 0\n6 2 0\n5 3 0\n 7 0 5 6 4 0\n8 1 x'
} > "$here/proof"
printf '11 0 13\n9 0 1\n11 0 1\n12 1 0\n' > "$here/cuts"
cut_anywhere "a text"
# The same by bytes, with ids of two bytes, and two clauses of new variables, whose bytes have a line
# end and `l 1` between two.
bytes_of 61 8c 01 02 00 02 04 00 64 02 04 00 61 8e 01 04 00 8c 01 06 00 \
    61 0a 6c 20 31 0a 00 00 61 90 01 06 00 00 64 90 01 00 61 92 01 00 8c 01 8e 01 08 00 \
    0a 6c 20 31 0a ff > "$here/proof"
printf '8 2 0\n4 0 0\n9 2 0\n8 1 0\n6 2 0\n4 0 0\n10 2 0\n' > "$here/cuts"
cut_anywhere "a binary proof"

# Writers. Refused are programs that take a short read for the end, that judge what one read gives as
# if it were whole lines, and that end before the writer does.
by_bytes() { dd bs=1 status=none if="$1"; }
with_a_pause() {
    head -c "$pause" "$1"
    sleep 1
    tail -c +$((pause + 1)) "$1"
}
cp "$here/proof" "$here/binary"
cp "$here/right" "$here/proof"
judged refuted
writer=by_bytes
piped "a text, byte by byte"
cp "$here/binary" "$here/proof"
piped "a binary proof, byte by byte"
printf '5 1 0 1 2 0\n  l 1\n6 0 5 3 4 0\n' > "$here/proof"
faulty "F12 second proof, line $(line_of 2)"
piped "a label line, byte by byte"
# (a pause behind a hint, within a binary proof's number, behind the `l` of a label line, and behind
# its line, where the program may end before its writer does)
writer=with_a_pause
printf '5 1 0 1 2 0\n6 0 5 3 4 0\n7 0 10 0\n' > "$here/proof"
judged refuted
pause=21
piped "a text that stops"
cp "$here/binary" "$here/proof"
pause=46
piped "a binary proof that stops"
printf '5 1 0 1 2 0\nl 1\n6 0 5 3 4 0\n' > "$here/proof"
faulty "F12 second proof, line $(line_of 2)"
pause=13
piped "a label line that stops behind its l"
pause=16
piped "a proof that stops behind a label line"
# A writer that is killed in the midst: the proof is what it has written.
that_dies() {
    sh -c 'head -c "$1" "$2"; kill -KILL $$' sh "$pause" "$1"
}
writer=that_dies
cp "$here/right" "$here/proof"
judged "rejected 1 end"
pause=0
piped "a writer that dies before it has written"
judged "rejected 2 end"
pause=12
piped "a writer that dies behind a step"
judged "rejected 2 unreadable"
pause=20
piped "a writer that dies within a step"
judged refuted
pause=24
piped "a writer that dies behind the refutation"
writer=cat

# Blocks. Refused are programs that take the first block for the proof, that lose or double a byte, a
# line or a step where two blocks meet, that have no more room for a line than a block has, and that
# count the steps of a proof block by block.

# A text and a binary proof of 72,000 bytes and more, with one to 20 bytes before them.
shift=1
while [ "$shift" -le 20 ]; do
    { blanks "$shift" && rounds 72000 && cat "$here/right"; } > "$here/proof"
    judged refuted
    piped "a text of more than a block, $shift bytes later"
    { blanks "$shift" && rounds 72000 && echo '6 0 5 3 4 0'; } > "$here/proof"
    judged "rejected $(($(steps_of 72000) + 1)) hint"
    piped "a text that is rejected behind a block, $shift bytes later"
    shift=$((shift + 1))
done
# (an addition and the deletion of its clause, 12 bytes, 6,561 times; before them deletions of no
# clause, one of which has three bytes in the place of two if the count of bytes is odd)
bytes_of 61 8c 01 02 00 02 04 00 64 8c 01 00 > "$here/round"
for times in 1 2 3 4; do
    for copy in 1 2 3 4 5 6 7 8 9; do cat "$here/round"; done > "$here/more"
    mv "$here/more" "$here/round"
done
shift=2
while [ "$shift" -le 13 ]; do
    {
        [ $((shift % 2)) -eq 0 ] || bytes_of 64 80 00
        for word in $(seq $((shift / 2 - shift % 2))); do bytes_of 64 00; done
        cat "$here/round"
    } > "$here/start"
    { cat "$here/start" && bytes_of 61 0a 02 00 02 04 00 61 0c 00 0a 06 08 00; } > "$here/proof"
    judged refuted
    piped "a binary proof of more than a block, $shift bytes later"
    { cat "$here/start" && bytes_of 61 0a 00 00; } > "$here/proof"
    judged "rejected $((shift / 2 + 2 * 9 * 9 * 9 * 9 + 1)) empty"
    piped "a binary proof that is rejected behind a block, $shift bytes later"
    shift=$((shift + 1))
done
# Lines that are longer than one block, and than two: a comment, blanks within a step, a step of many
# hints, and a proof that is one line.
for length in 65535 65536 65537 70000 140000; do
    { printf '5 1 0 1 2 0\nc' && letters "$length" && printf '\n6 0 5 3 4 0\n'; } > "$here/proof"
    judged refuted
    piped "a comment of $length bytes"
    {
        printf '5 1 0' && blanks "$length" && printf '1 2 0\n6 0'
        blanks "$length" && echo '5 3 4 0'
    } > "$here/proof"
    piped "steps with $length blanks"
    { printf '5 1 0 1 2' && blanks "$length" | sed 's/  / 2/g' && printf ' 0 6 0 5 3 4 0'; } > "$here/proof"
    piped "a line with some $length bytes of hints and two steps"
    { printf '5 1 0 1 2' && blanks "$length"; } > "$here/proof"
    judged "rejected 1 unreadable"
    piped "a step that doesn't end in $length blanks"
    { echo '5 1 0 1 2 0' && blanks "$length"; } > "$here/proof"
    judged "rejected 2 end"
    piped "a proof with $length blanks at its end"
done

# Label lines. Refused are programs that take a label line for a step or for the proof's end, that
# count its line from the proof's beginning, from a block's or from the cubes' text, that report it by
# another fault, that write a report, a picture or a record all the same, that look for it in some of
# the blocks alone, that stop at the step that refutes, and that see it in a comment, within a line or
# behind a carriage return.

# A label line: what is said of it, the fault, and what printf makes the line of. Above it stands
# $here/above, and below it $here/below.
labeled() {
    { cat "$here/above" && printf "$3" && cat "$here/below"; } > "$here/proof"
    faulty "$2, line $(line_of $(($(ends_of "$here/above") + 1)))"
    piped "$1"
}
forms='l 1\nF12 second proof
l 01\nF12 second proof
 l 1\nF12 second proof
\tl\r1\t\nF12 second proof
l 2\nF11 no such leaf
l m1\nF11 no such leaf
l n 0\nF11 no such leaf
l n 1 0\nF11 no such leaf
l\nF10 bad label
l x\nF10 bad label
l 1 2\nF10 bad label
l n\nF10 bad label'
while IFS= read -r form; do
    form_of=${form%\\n*}
    fault=${form#*\\n}
    : > "$here/above"
    cp "$here/right" "$here/below"
    labeled "the label line '$form_of' before a proof" "$fault" "$form_of\n"
    printf '5 1 0 1 2 0\n' > "$here/above"
    printf '6 0 5 3 4 0\n' > "$here/below"
    labeled "the label line '$form_of' in a proof" "$fault" "$form_of\n"
    : > "$here/below"
    labeled "the label line '$form_of' at a proof's end" "$fault" "$form_of"
done << FORMS
$forms
FORMS
cp "$here/right" "$here/above"
: > "$here/below"
labeled "a label line behind the refutation" "F12 second proof" 'l 1\n'
labeled "a label line behind the refutation, without a line end" "F12 second proof" 'l 1'
printf '5 1 0\n' > "$here/above"
printf '1 2 0\n6 0 5 3 4 0\n' > "$here/below"
labeled "a label line within a step" "F12 second proof" 'l 1\n'
printf 'x\n' > "$here/above"
labeled "a label line below a step that is unreadable" "F12 second proof" 'l 1\n'
printf '\n\n  \nc l 1\n\n' > "$here/above"
labeled "a label line below blank lines and a comment" "F11 no such leaf" 'l 2\n'
printf 'l x\n6 0 5 3 4 0\n' > "$here/below"
labeled "a label line above another" "F12 second proof" 'l 1\n'
# (behind 64 KB of steps and more, and from some bytes before a block's end to some behind it)
printf '6 0 5 3 4 0\n' > "$here/below"
for length in 65530 65532 65533 65534 65535 65536 65537 65538 70000 131069 131070 131071 131072 \
    131073 200000; do
    rounds "$length" > "$here/above"
    labeled "a label line below $length bytes" "F12 second proof" 'l 1\n'
done
: > "$here/below"
for length in 65533 65534 65535 65536 131070 131072 200000; do
    rounds "$length" > "$here/above"
    labeled "a label line below $length bytes, without a line end" "F10 bad label" 'l'
done
# (below a line that is longer than a block and than two, and behind the refutation and such a line)
for length in 65535 65536 70000 131072 140000; do
    printf '6 0 5 3 4 0\n' > "$here/below"
    { echo '5 1 0 1 2 0' && printf c && letters "$length" && echo; } > "$here/above"
    labeled "a label line below a comment of $length bytes" "F12 second proof" 'l 1\n'
    { printf '5 1 0' && blanks "$length" && echo '1 2 0'; } > "$here/above"
    labeled "a label line below a step with $length blanks" "F12 second proof" 'l 1\n'
    { cat "$here/right" && printf 'c' && letters "$length" && echo; } > "$here/above"
    labeled "a label line behind the refutation and $length bytes" "F12 second proof" 'l 1\n'
    # (a label line that is itself so long)
    echo '5 1 0 1 2 0' > "$here/above"
    labeled "a label line with $length blanks before it" "F12 second proof" "$(blanks "$length")l 1\n"
    labeled "a label line with $length blanks in it" "F11 no such leaf" "l$(blanks "$length")2\n"
done
# (a formula whose last line has no end, and one with more lines; and a formula that is faulty, whose
# fault comes first)
echo '5 1 0 1 2 0' > "$here/above"
printf '6 0 5 3 4 0\n' > "$here/below"
printf %s "$(cat "$here/formula")" > "$here/run/formula.cnf"
labeled "a label line below a formula without its last line end" "F12 second proof" 'l 1\n'
{ printf 'c\n\n' && cat "$here/formula" && printf 'c\n\n'; } > "$here/run/formula.cnf"
labeled "a label line below a formula with more lines" "F12 second proof" 'l 1\n'
sed 's/ 4$/ 5/' "$here/formula" > "$here/run/formula.cnf"
faulty "F17 the header says 2 variables and 5 clauses, there are 2 and 4"
piped "a label line below a formula that is faulty"
printf 'p cnf 2 4\n1 2 0\nx\n' > "$here/run/formula.cnf"
faulty "F2 token, line 3"
piped "a label line below a formula with a wrong token"
cp "$here/formula" "$here/run/formula.cnf"
# With --explain the report, the status and the line of the fault are the same.
explained() {
    for way in by_pipe by_fifo; do
        "$way" "$here/proof" --explain
        grep '^explain: ' "$here/err" > "$here/explained"
        grep -v '^explain: ' "$here/err" > "$here/lines"
        cp "$here/lines" "$here/err"
        compares "$1, explained, $way"
        [ -s "$here/explained" ]
        count "$1, explained, $way: some lines explain it" $?
    done
}
printf '5 1 0 1 2 0\nl 1\n6 0 5 3 4 0\n' > "$here/proof"
faulty "F12 second proof, line $(line_of 2)"
explained "a label line"
cp "$here/right" "$here/proof"
judged refuted
explained "a text"
# What is no label line: the first byte that isn't blank is another one.
judged refuted
printf '5 1 0 1 2 0\nc l 1\n  cl 1\nc\rl 1\n6 0 5 3 4 0\n' > "$here/proof"
piped "label lines in comments"
judged "rejected 2 unreadable"
for text in 'lx 1' 'll' 'L 1' '\013l 1' '\001l 1' '5\rl 1'; do
    printf "5 1 0 1 2 0\n$text\n6 0 5 3 4 0\n" > "$here/proof"
    piped "'$text', which is no label line"
done
# With a label line there is no report, no picture and no record; and an empty log, since the log is
# made before anything is read and gets no line.
for words in "" "--workers 1"; do
    printf '5 1 0 1 2 0\n6 0 5 3 4 0\nl 1\n' > "$here/proof"
    faulty "F12 second proof, line $(line_of 3)"
    for way in by_pipe by_fifo; do
        rm -f "$here"/run/a.*
        "$way" "$here/proof" --record a.record --map a.svg --log a.log $words
        compares "a label line and all outputs, $way $words"
        [ "$(cd "$here/run" && echo a.*)" = a.log ] && [ ! -s "$here/run/a.log" ]
        count "a label line leaves no picture, no record and no line of a log, $way $words" $?
        for file in record svg; do echo "what was there" > "$here/run/a.$file"; done
        "$way" "$here/proof" --record a.record --map a.svg $words
        compares "a label line and outputs that are there, $way $words"
        for file in record svg; do [ "$(cat "$here/run/a.$file")" = "what was there" ] || break; done
        count "a label line leaves picture and record as they were, $way $words" $?
    done
done

# Outputs. Refused are programs whose record has the digest of another text (the formula's file, or
# one with the proof), that draw before the proof is judged, that log a line twice, and whose list of
# open leaves is another one.
outputs() {
    # (the text up to the first label line: the formula with its problem line overwritten, and a cube)
    {
        awk 'NR == 1 { $0 = sprintf("%-" length($0) "s", "p inccnf") } { print }' "$here/run/formula.cnf"
        printf '\na 0\n'
    } > "$here/text"
    { printf 'i %s\n' "$(sha256sum < "$here/text" | cut -c1-64)" && cat "$here/wanted.out"; } > "$here/record"
    python3 "$root/scripts/draw.py" "$here/text" "$here/wanted.out" > "$here/picture"
    sed -n '/^a 1 /p' "$here/wanted.out" > "$here/line"
    for way in by_pipe by_fifo; do
        rm -f "$here"/run/a.*
        "$way" "$here/proof" --record a.record --map a.svg --log a.log
        compares "$1, with all outputs, $way"
        cmp -s "$here/run/a.record" "$here/record"
        count "$1, the record, $way" $?
        cmp -s "$here/run/a.svg" "$here/picture"
        count "$1, the picture, $way" $?
        cmp -s "$here/run/a.log" "$here/line"
        count "$1, the log, $way" $?
    done
}
cp "$here/right" "$here/proof"
judged refuted
outputs "a refuted formula"
bytes_of 61 0a 02 00 02 04 00 > "$here/proof"
judged "rejected 2 end"
outputs "a formula that is open"
cp "$here/right" "$here/proof"
sed 's/cnf 2 4/cnf 20 00004/' "$here/formula" > "$here/run/formula.cnf"
judged refuted
outputs "a formula with a longer header"
cp "$here/formula" "$here/run/formula.cnf"
: > "$here/wanted.out"
piped "no open leaf" --list-open
printf '5 1 0 1 2 0\n' > "$here/proof"
judged "rejected 2 end"
echo 1 > "$here/wanted.out"
piped "the open leaf" --list-open
rm -f "$here"/run/a.*

# Devices. Refused are programs that take input that can't be read for an empty proof, that print a
# report before all is read, or that end by a signal where nobody reads their report.
faulty "F13 device" 5
: > "$here/out"
(cd "$here/run" && timeout 60 "$program" --formula formula.cnf --proof - <&-) > "$here/out" 2> "$here/err"
echo $? > "$here/status"
compares "no standard input"
run "$here/run" --formula formula.cnf --proof -
compares "a folder for the standard input"
mkdir "$here/run/folder"
run "$here/none" --formula formula.cnf --proof folder
compares "a folder in the place of a named pipe"
run "$here/none" --formula formula.cnf --proof not_there
compares "a path at which nothing is"
cp "$here/right" "$here/proof"
by_pipe "$here/proof" --record no_such_folder/a.record
compares "a record that can't be made"
by_pipe "$here/proof" --map folder
compares "a picture that can't be made"
printf '5 1 0 1 2 0\nl 1\n' > "$here/labels"
# A report that nobody reads: the reader was this shell's, and is closed before the program starts.
mkfifo "$here/pipe"
for signal in "as it is" ignored; do
    for input in right labels; do
        faulty "F13 device" 5
        [ "$input" = right ] || faulty "F12 second proof, line $(line_of 2)"
        : > "$here/out"
        (
            [ "$signal" = ignored ] && trap '' PIPE
            exec 3<> "$here/pipe" 4> "$here/pipe" 3<&-
            cat "$here/$input" | {
                cd "$here/run"
                timeout 60 "$program" --formula formula.cnf --proof - >&4 2> "$here/err"
                echo $? > "$here/status"
            }
        )
        compares "nobody reads the report on $input, the signal $signal"
    done
done
# Each read of the proof in $here/proof, which refutes: what it is, and how many bytes a read gives. So
# it is behind the step that refutes, too.
each_read_of_a_proof() {
    judged refuted
    keeps
    each_read_fails "$1" "$2" "$here/proof" "$here/right" --formula formula.cnf --proof -
}
# The proof in $here/proof, with what is wanted made before, by reads of at most so many bytes.
by_short_reads() {
    for size in 1 1000; do
        read_with "$size" 0 "$here/proof" --formula formula.cnf --proof -
        compares "$1, by reads of at most $size bytes"
    done
}
if preload device "the reads that are short or fail"; then
    { rounds 70000 && cat "$here/right"; } > "$here/proof"
    judged refuted
    by_short_reads "a long text"
    { rounds 70000 && echo 'l 1' && cat "$here/right"; } > "$here/proof"
    faulty "F12 second proof, line $(line_of $(($(steps_of 70000) + 2)))"
    by_short_reads "a label line below 70,000 bytes"
    { cat "$here/round" && bytes_of 61 0a 02 00 02 04 00 61 0c 00 0a 06 08 00; } > "$here/proof"
    judged refuted
    by_short_reads "a long binary proof"
    { cat "$here/right" && echo 'c behind it'; } > "$here/proof"
    each_read_of_a_proof "a text" 1
    each_read_of_a_proof "a text" 7
    cp "$here/binary" "$here/proof"
    each_read_of_a_proof "a binary proof" 1
    { rounds 200000 && cat "$here/right"; } > "$here/proof"
    each_read_of_a_proof "a long text" 40000
    # (a formula that is faulty comes before each read: none is made)
    sed 's/ 4$/ 5/' "$here/formula" > "$here/run/formula.cnf"
    faulty "F17 the header says 2 variables and 5 clauses, there are 2 and 4"
    read_with 1 1 "$here/right" --formula formula.cnf --proof -
    compares "a proof that can't be read below a formula that is faulty"
    [ ! -f "$here/mark" ]
    count "nothing is read of a proof below a formula that is faulty" $?
    cp "$here/formula" "$here/run/formula.cnf"
fi

# Memory. Refused are programs that hold the proof, its text if it is binary, its lines, or something
# for each step or each id.
measured_program
# A proof of 100 MB and more: what it is, by_pipe or by_fifo, and further words.
large() {
    what=$1
    way=$2
    shift 2
    echo none > "$here/peak"
    program=$here/measured
    "$way" "$here/proof" "$@"
    program=$built
    compares "$what, $way"
    [ "$(cat "$here/peak")" -le 64 ] 2> /dev/null
    count "$what, $way: at most 64 MB in memory, and not $(cat "$here/peak")" $?
}
# (100 times the file $here/part, then the file in question)
by_parts() {
    for part in $(seq 100); do cat "$here/part" || return; done
    cat "$1"
}
rounds 1000000 > "$here/part"
cp "$here/right" "$here/proof"
writer=by_parts
judged refuted
large "a text of 100 MB" by_pipe
large "a text of 100 MB" by_fifo
large "a text of 100 MB with one worker" by_pipe --workers 1
printf '5 1 0 1 2 0\n6 0 5 3 0\n' > "$here/proof"
judged "rejected $((100 * $(steps_of 1000000) + 2)) empty"
large "a text of 100 MB that is rejected at its end" by_pipe
printf '5 1 0 1 2 0\nl 1\n6 0 5 3 4 0\n' > "$here/proof"
faulty "F12 second proof, line $(line_of $((100 * $(ends_of "$here/part") + 2)))"
large "a text of 100 MB with a label line at its end" by_pipe
sed 's/ 4$/ 5/' "$here/formula" > "$here/run/formula.cnf"
faulty "F17 the header says 2 variables and 5 clauses, there are 2 and 4"
large "a text of 100 MB below a formula that is faulty" by_pipe
large "a text of 100 MB below a formula that is faulty" by_fifo
cp "$here/formula" "$here/run/formula.cnf"
behind_it() {
    cat "$1" && by_parts "$1"
}
writer=behind_it
faulty "F12 second proof, line $(line_of 2)"
large "a text of 100 MB with a label line in its second line" by_pipe
writer=by_parts
yes 'c a line that no step is on' | head -n 40000 > "$here/part"
cp "$here/right" "$here/proof"
judged refuted
large "comments of 100 MB above a proof" by_pipe
for copy in $(seq 13); do cat "$here/round"; done > "$here/part"
bytes_of 61 0a 02 00 02 04 00 61 0c 00 0a 06 08 00 > "$here/proof"
judged refuted
large "a binary proof of more than 100 MB" by_pipe
# (ids that rise by one, as solvers write them)
that_rises() {
    awk 'BEGIN {
        for (id = 5; id < 3000000; id++) print id " 1 0 1 2 0\n" id " d " id " 0"
        print "3000000 1 0 1 2 0\n3000001 0 3000000 3 4 0"
    }'
}
writer=that_rises
large "a text of 100 MB whose ids rise" by_pipe

# Bundles. Refused are programs that judge a section before it is whole, or as another label line's,
# that lose or double a byte where two blocks meet, that count lines block by block, that pass over a
# label line or a fault, that write a report where there is one, that lose what another worker finds,
# and that hold a bundle.

# What four workers say of the bundle in $here/bundle that they hold: further words.
held() {
    cp "$here/bundle" "$here/run/bundle.icnf" && run "$here/none" --proofs none "$@" bundle.icnf
    for it in out err status; do cp "$here/$it" "$here/wanted.$it"; done
}
# The bundle in a file, by a pipe, and by a named pipe with one worker: its name, and further words.
bundle() {
    what=$1
    shift
    held "$@"
    run "$here/none" "$@" bundle.icnf
    compares "$what, in a file"
    fed "$here/bundle" "$@"
    compares "$what, by a pipe"
    named "$here/bundle" --workers 1 "$@" text.pipe
    compares "$what, by a named pipe"
}
# (what there is of a bundle has to be refuted, or nothing would be tried by it)
refuted_bundle() {
    bundle "$@" && [ "$(tail -n 1 "$here/out")" = "s REFUTED" ]
    count "$1 is refuted" $?
}
writer=cat
{ printf 'p inccnf\n' && tail -n +2 "$here/formula" && printf 'a 1 0\na -1 0\n'; } > "$here/case"
printf '6 0 5 3 4 0\n' > "$here/first"
printf '6 0 5 1 2 0\n' > "$here/second"
{ cat "$here/case" && echo 'l 1' && cat "$here/first" && echo 'l 2' && cat "$here/second"; } > "$here/bundle"
refuted_bundle "a bundle"
# (an inner node, a missing leaf, a rejected proof, an empty section, comments and a last line without
# an end)
{
    printf 'p inccnf\n' && tail -n +2 "$here/formula"
    printf 'a 1 2 0\nc a cube\na 1 -2 0\nl n 1 0\nc so\n6 0 5 3 4 0\n\nl 2\nl 1\n7 0 5 0\n l m1\r\n6 0\n5 1 2 0'
} > "$here/bundle"
refuted_bundle "a bundle with an inner node and a missing leaf"
bundle "the open leaves of that bundle" --list-open
cp "$here/bundle" "$here/whole"
length=0
while [ "$length" -le "$(wc -c < "$here/whole")" ]; do
    head -c "$length" "$here/whole" > "$here/bundle"
    bundle "a bundle cut behind byte $length"
    length=$((length + 1))
done
cp "$here/whole" "$here/bundle"
writer=by_bytes
refuted_bundle "a bundle, byte by byte"
writer=with_a_pause
for pause in 20 60 75 90; do refuted_bundle "a bundle that stops behind byte $pause"; done
writer=cat
# Each form of a label line, above the sections, between them and at the end.
while IFS= read -r form; do
    line=${form%\\n*}
    { cat "$here/case" && printf "$line\n" && echo 'l 1' && cat "$here/first"; } > "$here/bundle"
    bundle "the label line '$line' above a section"
    { cat "$here/case" && echo 'l 1' && printf "$line\n" && echo 'l 2' && cat "$here/second"; } > "$here/bundle"
    bundle "the label line '$line' between two sections"
    { cat "$here/case" && echo 'l 1' && cat "$here/first" && printf "$line"; } > "$here/bundle"
    bundle "the label line '$line' at the end of a bundle"
done << FORMS
$forms
FORMS
# Faults of the formula and of the cubes, with sections below them.
for lines in 'p cnf 2 4' '1 x 0' 'a 1 0' 'a 2 0' 'a 0' '1 2'; do
    { cat "$here/case" && echo "$lines" && echo 'l 1' && cat "$here/first" && echo 'l x'; } > "$here/bundle"
    bundle "the line '$lines' above the sections"
done
{ echo 'l 1' && cat "$here/first"; } > "$here/bundle"
bundle "a bundle that is a section alone"
# A label line at each place about a block's end, and sections of several blocks.
above=$(cat "$here/case" "$here/first" | wc -c)
for at in $(seq 65526 65540) $(seq 131068 131074); do
    {
        cat "$here/case" && echo 'l 1' && printf c && letters $((at - above - 6)) && echo
        cat "$here/first" && echo 'l 2' && cat "$here/second"
    } > "$here/bundle"
    refuted_bundle "a label line behind $at bytes"
    sed 's/^l 2$/l 3/' "$here/bundle" > "$here/other" && mv "$here/other" "$here/bundle"
    bundle "a faulty label line behind $at bytes"
done
for lines in 3000 10000; do
    {
        cat "$here/case" && echo 'l 2'
        awk -v lines="$lines" 'BEGIN { while (lines-- > 0) print "6 2 0 5 1 0\n6 d 6 0" }'
        cat "$here/second" && echo 'l 1'
        awk -v lines="$lines" 'BEGIN { while (lines-- > 0) print "6 2 0 5 3 0\n6 d 6 0" }'
        cat "$here/first"
    } > "$here/bundle"
    refuted_bundle "sections of $lines additions"
done
# The record, the picture and the log.
cp "$here/whole" "$here/bundle" && cp "$here/bundle" "$here/run/bundle.icnf"
run "$here/none" --proofs none --record f.record --map f.svg --log f.log bundle.icnf
sort "$here/run/f.log" > "$here/lines"
for way in run fed named; do
    case $way in
        run) set -- "$here/none" bundle.icnf ;;
        fed) set -- "$here/bundle" ;;
        named) set -- "$here/bundle" text.pipe ;;
    esac
    from=$1 && shift
    "$way" "$from" --record a.record --map a.svg --log a.log "$@"
    for file in record svg; do
        cmp -s "$here/run/a.$file" "$here/run/f.$file"
        count "the $file of a bundle, $way" $?
    done
    [ -s "$here/lines" ] && sort "$here/run/a.log" | cmp -s - "$here/lines"
    count "the log of a bundle, $way" $?
done
rm -f "$here"/run/[af].*
# Below a formula in a file of its own. Wanted is what is said of the bundle that both make, as one
# file: so each fault has its line in all of it. Refused are programs that count lines from the pipe's
# first one, that judge before the clauses are counted, and that hold what comes by the pipe.
by_both_pipes() {
    what=$1
    shift
    cp "$here/cubes" "$here/run/cubes.icnf" && run "$here/none" --formula formula.cnf "$@" cubes.icnf
    compares "$what below a formula, in a file"
    fed "$here/cubes" --formula formula.cnf "$@"
    compares "$what below a formula, by a pipe"
    named "$here/cubes" --workers 1 --formula formula.cnf "$@" text.pipe
    compares "$what below a formula, by a named pipe"
}
below() {
    { echo 'p inccnf' && tail -n +2 "$here/formula" && echo && cat "$here/cubes"; } > "$here/bundle"
    held
    by_both_pipes "$@"
}
{ printf 'a 1 0\na -1 0\nl 1\n' && cat "$here/first" && echo 'l 2' && cat "$here/second"; } > "$here/sections"
length=0
while [ "$length" -le "$(wc -c < "$here/sections")" ]; do
    head -c "$length" "$here/sections" > "$here/cubes"
    below "cubes and sections cut behind byte $length"
    length=$((length + 1))
done
[ "$(tail -n 1 "$here/out")" = "s REFUTED" ]
count "the whole of them is refuted" $?
for lines in 'a 1 0' 'a x 0' 'a 2 0' 'a 0' 'a 1' 'l 3' 'l 1' 'l n 2 0' 'l'; do
    { cat "$here/sections" && echo "$lines"; } > "$here/cubes"
    below "the line '$lines' behind the sections"
    { echo "$lines" && cat "$here/sections"; } > "$here/cubes"
    below "the line '$lines' above the cubes"
done
# (clauses that the formula's file hasn't got are told before a fault of the cubes or of a label line)
faulty "F17 the header says 2 variables and 4 clauses, there are 2 and 5"
for lines in 'l 1' 'l x'; do
    { echo '-2 0' && cat "$here/sections" && echo "$lines"; } > "$here/cubes"
    by_both_pipes "a clause more and the line '$lines' behind the sections"
done
for lines in 'a 1 0' 'a 2 0'; do
    { echo '-2 0' && echo "$lines" && cat "$here/sections"; } > "$here/cubes"
    by_both_pipes "a clause more and the line '$lines' above the cubes"
done
cp "$here/sections" "$here/cubes"
printf 'c no header\n' > "$here/run/formula.cnf"
faulty "F16 no DIMACS header"
by_both_pipes "no header"
rm "$here/run/formula.cnf"
faulty "F13 device" 5
by_both_pipes "no file"
cp "$here/formula" "$here/run/formula.cnf"
# Each read that fails in turn.
if preload device "the reads of a bundle that are short or fail"; then
    cp "$here/whole" "$here/bundle" && held
    keeps
    each_read_fails "a bundle" 1 "$here/bundle" "$here/right" --workers 1
    each_read_fails "a bundle, by four workers" 7 "$here/bundle" "$here/right" --workers 4
    cp "$here/sections" "$here/cubes" && below "cubes and sections"
    keeps
    each_read_fails "cubes and sections below a formula" 7 "$here/cubes" "$here/right" --formula formula.cnf
fi
# Memory: a section of 100 MB between two others, a fault behind it, and many sections.
awk 'BEGIN { for (i = 0; i < 50000; i++) print "6 2 0 5 3 0\n6 d 6 0" }' > "$here/part"
with_parts() {
    cat "$here/case" && echo 'l 2' && cat "$here/second" && echo 'l 1'
    for part in $(seq 100); do cat "$here/part" || return; done
    cat "$1"
}
# (its name, the line that the report or the fault has, and further words)
large_bundle() {
    what=$1 line=$2
    shift 2
    for workers in 1 4; do
        echo none > "$here/peak"
        program=$here/measured
        if [ "$workers" -eq 4 ]; then fed "$here/proof" "$@"; else named "$here/proof" --workers 1 "$@" text.pipe; fi
        program=$built
        [ "$(tail -n 1 "$here/out" "$here/err" | grep -c -x -e "$line")" -eq 1 ]
        count "$what, $workers workers: $line" $?
        [ "$(cat "$here/peak")" -le 64 ] 2> /dev/null
        count "$what, $workers workers: at most 64 MB in memory, and not $(cat "$here/peak")" $?
    done
}
# (the leaves of seven variables that the formula hasn't got, each with a section of 1 MB)
many_cubes() {
    head -n 5 "$here/case" && awk 'BEGIN { for (i = 0; i < 128; i++) {
        line = "a"
        for (v = 3 + 0 * (k = i); v < 10; v++) { line = line (k % 2 ? " -" : " ") v; k = int(k / 2) }
        print line " 0"
    } }'
}
of_many() {
    many_cubes && for leaf in $(seq 128); do echo "l $leaf" && cat "$here/part" "$1" || return; done
}
writer=with_parts
cp "$here/first" "$here/proof"
large_bundle "a bundle of 100 MB" "s REFUTED"
cp "$here/case" "$here/both"
grep '^a' "$here/both" > "$here/case"
large_bundle "cubes and sections of 100 MB below a formula" "s REFUTED" --formula formula.cnf
cp "$here/both" "$here/case"
{ cat "$here/first" && echo 'l 1'; } > "$here/proof"
large_bundle "a bundle of 100 MB with a label line at its end" "cubeboard: F12 second proof, line 10000012"
awk 'BEGIN { for (i = 0; i < 40000; i++) print "12 1 0 1 2 0\n12 d 12 0" }' > "$here/part"
printf '12 1 0 1 2 0\n13 0 12 3 4 0\n' > "$here/proof"
writer=of_many
large_bundle "a bundle of 128 sections of 1 MB" "s REFUTED"
writer=cat
# The same proofs in a folder, the last of them behind a label line in the file before: one file at a time
# is in memory.
mkdir "$here/run/many" && many_cubes > "$here/run/many.icnf"
for leaf in $(seq 127); do cat "$here/part" "$here/proof" > "$here/run/many/$leaf.lrat" || break; done
{ echo 'l 128' && cat "$here/part" "$here/proof"; } >> "$here/run/many/127.lrat"
for workers in 1 4; do
    echo none > "$here/peak"
    program=$here/measured
    run "$here/none" --workers "$workers" --proofs many many.icnf
    program=$built
    [ "$(tail -n 1 "$here/out")" = "s REFUTED" ] && [ ! -s "$here/err" ]
    count "a folder of 128 MB with a label line, $workers workers: s REFUTED" $?
    [ "$(cat "$here/peak")" -le 64 ] 2> /dev/null
    count "that folder, $workers workers: at most 64 MB in memory, and not $(cat "$here/peak")" $?
done

# Folders. Refused are programs that open a pipe again if all proofs have to be read again, and so wait
# for ever; that take it for a proof that isn't there; that report the label line all the same, or
# judge what they had; that write a record or a picture; that refuse each pipe, or one that has been
# taken away; and that tell a pipe by its own path alone, and not by where a link leads.

# Lays out a folder of two cubes with their proofs in it, and a pipe to which no name in it leads yet.
# A file $here/K.text is what is written into the pipe at proofs/K.lrat.
two_leaves() {
    rm -rf "$here/run" "$here"/*.text
    mkdir "$here/run" "$here/run/proofs"
    cp "$here/case" "$here/run/case.icnf"
    cp "$here/first" "$here/run/proofs/1.lrat"
    cp "$here/second" "$here/run/proofs/2.lrat"
}
# A pipe in the place of the proof of a leaf, which gets that proof and these lines behind it.
pipe_for() {
    { cat "$here/run/proofs/$1.lrat" && printf "$2"; } > "$here/$1.text"
    rm "$here/run/proofs/$1.lrat"
    mkfifo "$here/run/proofs/$1.lrat"
}
writes() { cat "$1" > "$2"; }
# (what the program reads of it is behind the moment in which the pipe's name has gone)
takes_away() { { rm "$2" && cat "$1"; } > "$2"; }
# A run on that folder, with what is wanted made before, by one worker and by four: the claim. A writer
# of each pipe is there before the program, and is ended with it, also if nobody opened the pipe.
pipes=writes
in_folder() {
    for workers in 1 4; do
        writers=
        rm -rf "$here/kept"
        cp -a "$here/run" "$here/kept"
        for text in "$here"/*.text; do
            [ -f "$text" ] || continue
            label=$(basename "$text" .text)
            { "$pipes" "$text" "$here/run/proofs/$label.lrat"; } 2> /dev/null &
            writers="$writers $!"
        done
        run "$here/none" --workers "$workers" --record a.record --map a.svg --proofs proofs case.icnf
        end_writers $writers
        compares "$1, $workers workers"
        if [ "$(cat "$here/wanted.status")" -eq 5 ]; then
            [ ! -e "$here/run/a.record" ] && [ ! -e "$here/run/a.svg" ]
        else
            [ -s "$here/run/a.record" ] && [ -s "$here/run/a.svg" ]
        fi
        count "the record and the picture of $1, $workers workers" $?
        rm -rf "$here/run"
        mv "$here/kept" "$here/run"
    done
}
# Without a label line each pipe is read once.
refutes_two() {
    : > "$here/wanted.err"
    printf 't 2 0 %s\na 1 refuted\na 2 refuted\nw 0\ns REFUTED\n' "$weight" > "$here/wanted.out"
    echo 0 > "$here/wanted.status"
}
refutes_two
two_leaves
pipe_for 1 ''
pipe_for 2 ''
in_folder "a folder of two pipes"
two_leaves
pipe_for 2 ''
mv "$here/run/proofs/2.lrat" "$here/run/pipe"
ln -s ../pipe "$here/run/proofs/2.lrat"
in_folder "a link to a pipe"
# A label line in a file beside a pipe: one that is a fault, and one that is none.
faulty "F13 device" 5
for line in 'l 1' 'l n 0'; do
    two_leaves
    pipe_for 2 ''
    echo "$line" >> "$here/run/proofs/1.lrat"
    in_folder "a pipe beside a file with the line '$line'"
done
two_leaves
pipe_for 2 ''
mv "$here/run/proofs/2.lrat" "$here/run/pipe"
ln -s ../pipe "$here/run/proofs/2.lrat"
echo 'l n 0' >> "$here/run/proofs/1.lrat"
in_folder "a link to a pipe beside a file with a label line"
# One in the pipe itself.
for line in 'l 2' 'l n 0'; do
    two_leaves
    pipe_for 2 "$line\\n"
    in_folder "a pipe with the line '$line'"
done
# A leaf that has a section of its own.
two_leaves
pipe_for 2 ''
{ echo 'l 2' && cat "$here/second"; } >> "$here/run/case.icnf"
in_folder "a pipe for a leaf with a section of its own"
two_leaves
pipe_for 2 ''
{ echo 'l 1' && cat "$here/first"; } >> "$here/run/case.icnf"
in_folder "a pipe beside a file for a leaf with a section of its own"
# A device is read once, too.
two_leaves
ln -sf /dev/null "$here/run/proofs/2.lrat"
echo 'l n 0' >> "$here/run/proofs/1.lrat"
in_folder "a device beside a file with a label line"
# A pipe that was taken away is no proof: here it goes before its proof comes.
printf 't 2 0 %s\na 1 refuted\na 2 open\no -1 0\nw %s\ns OPEN\n' "$weight" $((weight / 2)) \
    > "$here/wanted.out"
: > "$here/wanted.err"
echo 1 > "$here/wanted.status"
two_leaves
pipe_for 2 'l n 0\n'
pipes=takes_away
in_folder "a pipe with a label line that was taken away"
finish
