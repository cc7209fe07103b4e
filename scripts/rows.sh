#!/bin/sh
# Runs the built program on each row of tests/rows, on each beginning of the bundle of
# tests/prefixes, on each line of tests/binary/proofs, and on the examples, and compares its
# standard output, its standard error and its status, byte for byte, with the files that say what is
# wanted. Those were written from the formats, not by the program. A run that hasn't ended after a
# minute is ended, and differs. The last line counts.
#
# A row NAME has NAME.in (standard input), NAME.out, NAME.err and NAME.status. NAME.args has the program's words, one a
# line; it runs in a folder of its own, where NAME.icnf lies as case.icnf, NAME.cnf as formula.cnf and NAME.proofs as proofs. A row without a word for the
# workers or the cut runs three times: as it is, with `--workers 1`, and with `--workers 4 --cut 3`.
root=$(CDPATH= cd -- "$(dirname -- "$0")/.." && pwd) || exit 1
. "$root/scripts/runs.sh"
build_program

for input in "$root"/tests/rows/*.in; do
    path=${input%.in}
    row "$path"
    if ! has_settings "$path"; then
        row "$path" --workers 1
        row "$path" --workers 4 --cut 3
    fi
done

beginnings

# Binary proofs: each line of tests/binary/proofs, whose head says what stands there. The second
# cube has no proof.
bytes_of() {
    for byte in "$@"; do printf "\\$(printf %03o "0x$byte")"; done
}
binary_proof() {
    said=$1
    lay_out "$root/tests/binary/$2"
    shift 2
    mkdir "$here/run/proofs"
    bytes_of "$@" > "$here/run/proofs/1.lrat"
    left=0
    weight=1152921504606846976
    if [ "$said" = refuted ]; then
        left="-4 0"
        weight=576460752303423488
    fi
    printf 't 2 0 1152921504606846976\na 1 %s\na 2 open\n' "$said" > "$here/wanted"
    printf 'o %s\nw %s\ns OPEN\n' "$left" "$weight" >> "$here/wanted"
    echo 1 > "$here/one"
    run /dev/null --proofs proofs case.icnf
    compare "the proof of the bytes $*" "$here/wanted" "$here/none" "$here/one"
}
while IFS= read -r line; do
    case $line in
        '' | '#'*) ;;
        *)
            # (the case's name and the bytes are words of their own)
            binary_proof "${line#*: }" ${line%:*}
            ;;
    esac
done < "$root/tests/binary/proofs"

# A large bundle: 300,000 clauses that hold of every assignment, and then two units that don't hold together.
awk 'BEGIN {
    print "p inccnf"
    for (i = 1; i <= 300000; i++) print i, -i, 0
    print "1 0\n-1 0\na 0\nl 1\n300003 0 300001 300002 0"
}' > "$here/in"
large=$root/tests/rows/unit_then_empty_clause
run "$here/in"
compare "a bundle of 300,002 clauses" "$large.out" "$large.err" "$large.status"

# Words that can't be taken, and the help: status 2, no report, and on standard error a text that has what is named first.
refuses() {
    named=$1
    shift
    run "$root/tests/rows/two_cubes_refuted.in" "$@"
    [ "$(cat "$here/status")" = 2 ] && [ ! -s "$here/out" ] && grep -q -e "$named" "$here/err"
    count "the words $*" $?
}
refuses Usage --help
[ "$(wc -l < "$here/err")" -le 40 ]
count "the help on one screen" $?
refuses Usage -h
for word in --version -V; do
    run "$root/tests/rows/two_cubes_refuted.in" "$word"
    [ "$(cat "$here/status")" = 2 ] && [ ! -s "$here/out" ] && [ "$(cat "$here/err")" = "cubeboard 0.1.0 (proved by a Rattle kit with $(rt version | sed 's/^.* logic /logic /'))" ]
    count "the word $word" $?
done
refuses --no-such-word --no-such-word
for word in --workers --cut --formula --proofs --map --record --log; do
    refuses "$word" "$word"
    refuses "$word" "$word" ''
    refuses "$word" "$word="
    refuses "$word" "$word" 1 "$word" 2
done
refuses --progress --progress --progress
refuses --progress --progress=1
refuses --explain --explain --explain
refuses --explain --explain=1
refuses --list-open --list-open --list-open
refuses --list-open --list-open=1
# One proof goes with the formula's own file, and with nothing else that has cubes.
alone="'--proof' needs '--formula', and can't be used with FILE or '--proofs'"
refuses "$alone" --proof proof.lrat
refuses "$alone" --proof proof.lrat case.icnf
refuses "$alone" --proof proof.lrat --formula formula.cnf case.icnf
refuses "$alone" --proof proof.lrat --formula formula.cnf --proofs proofs

# What is read isn't written over: FILE, the formula's file, a proof, whether it is there or not.
lay_out "$root/tests/rows/two_cubes_refuted"
cp "$root/tests/rows/two_cubes_refuted.in" "$here/run/case.icnf"
for word in --map --record --log; do
    refuses "'$word' can't name a file that is read" "$word" case.icnf case.icnf
    refuses "'$word' can't name a file that is read" "$word" formula.cnf --formula formula.cnf case.icnf
    refuses "'$word' can't name a file that is read" "$word" proof.lrat --formula formula.cnf --proof proof.lrat
    refuses "'$word' can't name a file that is read" "$word" proofs/1.lrat --proofs proofs
    refuses "'$word' can't name a file that is read" --proofs proofs/ "$word" proofs//any.lrat case.icnf
done
cmp -s "$root/tests/rows/two_cubes_refuted.in" "$here/run/case.icnf" && [ "$(ls "$here/run")" = case.icnf ]
count "no file that is read is written over" $?
run "$here/none" --map proofs.svg --record proofs/case.record --proofs proofs case.icnf
[ "$(cat "$here/status")" = 5 ] && [ -s "$here/run/proofs.svg" ]
count "a record into a folder that isn't there" $?
for value in 0 33 x 1.5 257 4294967297 18446744073709551617; do
    refuses --workers --workers "$value"
    refuses --workers --workers="$value"
done
for value in 7 x 1.5 256 4294967296 18446744073709551616; do
    refuses --cut --cut "$value"
    refuses --cut --cut="$value"
done
# A word that begins with - and stands alone is taken for a name, which there isn't.
for word in --workers --cut; do
    refuses "'-1'" "$word" -1
    refuses "$word" "$word=-1"
done

# With --progress the report and the status are the same, and standard error has a line at most once a second and one at the end: for
# the name of a row, and that last line. On a terminal, where `script` makes one, it stands behind a carriage return.
told="cubeboard: [0-9]* of [0-9]* judged, [0-9]* of [0-9]* bytes, [0-9]* refuted, [0-9]* rejected, [0-9]*\\.[0-9][0-9][0-9] % open"
progress() {
    lay_out "$root/tests/rows/$1"
    run "$root/tests/rows/$1.in" --progress
    cmp -s "$here/out" "$root/tests/rows/$1.out" && cmp -s "$here/status" "$root/tests/rows/$1.status" \
        && [ "$(tail -n 1 "$here/err")" = "$2" ] && [ "$(grep -c -v -x -e "$told" "$here/err")" = 0 ]
    count "progress on $1" $?
}
progress two_cubes_refuted "cubeboard: 2 of 2 judged, 24 of 24 bytes, 2 refuted, 0 rejected, 0.000 % open"
progress candidate_without_a_group "cubeboard: 1 of 1 judged, 19 of 19 bytes, 0 refuted, 1 rejected, 100.000 % open"
# With a folder one worker tells this, line by line: the name of a row with one.
progress_with_folder() {
    base=$root/tests/rows/$1
    lay_out "$base"
    cat > "$here/wanted"
    with_words "$base" run "$base.in" --workers 1 --progress
    has_given "$base.out" "$here/wanted" "$base.status"
    count "progress on $1" $?
}
progress_with_folder folder_of_proofs << 'TOLD'
cubeboard: 2 of 2 judged, 24 of 24 bytes, 2 refuted, 0 rejected, 0.000 % open
TOLD
# (the run that is made anew judges FILE's two sections before it meets the second proof; behind FILE's last
# line stands an empty one, which is the last of the second section then)
progress_with_folder proof_in_file_and_folder << 'TOLD'
cubeboard: 1.lrat has a label line or is a second proof, so all proofs are read again, one after the other
cubeboard: 2 of 4 judged, 24 of 48 bytes, 2 refuted, 0 rejected, 0.000 % open
cubeboard: 2 of 2 judged, 25 of 25 bytes, 2 refuted, 0 rejected, 0.000 % open
cubeboard: F12 second proof, line 13
TOLD
# A run that is made anew counts anew: FILE has the second cube's proof, and the first one's file has a section for the
# root, too. Behind the bundle's last line stands an empty one, which is the last of the second cube's section then.
rm -rf "$here/run"
mkdir -p "$here/run/proofs"
sed '/^l 1$/,/^6/d' "$root/tests/rows/two_cubes_refuted.in" > "$here/run/case.icnf"
printf '6 0 5 3 4 0\nl n 0\n5 1 0 1 2 0\n6 0 5 3 4 0\n' > "$here/run/proofs/1.lrat"
sed 's/^w 0$/n 0 refuted\n&/' "$root/tests/rows/two_cubes_refuted.out" > "$here/report"
cat > "$here/wanted" << 'TOLD'
cubeboard: 1.lrat has a label line or is a second proof, so all proofs are read again, one after the other
cubeboard: 1 of 2 judged, 12 of 54 bytes, 1 refuted, 0 rejected, 50.000 % open
cubeboard: 3 of 3 judged, 49 of 49 bytes, 3 refuted, 0 rejected, 0.000 % open
TOLD
run "$here/none" --workers 1 --progress --proofs proofs case.icnf
has_given "$here/report" "$here/wanted" "$root/tests/rows/two_cubes_refuted.status"
count "progress on a run that is made anew" $?
# A pipe that is slow: its second half comes two seconds after the first, and then a line on what was read is due.
slow=$root/tests/rows/two_cubes_refuted.in
(head -c 30 "$slow" && sleep 2 && tail -c +31 "$slow") | (cd "$here/run" && timeout 60 "$program" --progress) > "$here/out" 2> "$here/err"
echo $? > "$here/status"
cat > "$here/wanted" << TOLD
cubeboard: reading: $(($(wc -c < "$slow"))) bytes so far
cubeboard: 2 of 2 judged, 24 of 24 bytes, 2 refuted, 0 rejected, 0.000 % open
TOLD
has_given "$root/tests/rows/two_cubes_refuted.out" "$here/wanted" "$root/tests/rows/two_cubes_refuted.status"
count "progress while a slow pipe is read" $?
run "$root/tests/rows/two_cubes_refuted.in" --progress no_such_file
[ "$(cat "$here/status")" = 5 ] && [ "$(cat "$here/err")" = "cubeboard: F13 device" ]
count "no progress without a bundle" $?
(cd "$here/run" && timeout 60 "$program" --progress) < "$root/tests/rows/two_cubes_refuted.in" > "$here/out" 2>&-
echo $? > "$here/status"
cmp -s "$here/out" "$root/tests/rows/two_cubes_refuted.out" && [ "$(cat "$here/status")" = 0 ]
count "progress to a closed standard error" $?
if command -v script > /dev/null; then
    cp "$root/tests/rows/two_cubes_refuted.in" "$here/run/case.icnf"
    (cd "$here/run" && timeout 60 script -qec "'$program' --progress case.icnf > report" /dev/null) < /dev/null > "$here/err"
    echo $? > "$here/status"
    [ "$(tail -n 1 "$here/err" | tr '\r' '~' | cut -c1-29)" = "~cubeboard: 2 of 2 judged, 24" ] && cmp -s "$here/run/report" "$root/tests/rows/two_cubes_refuted.out"
    count "progress on a terminal" $?
else
    skip "progress on a terminal" "there is no script here that makes one" bsdutils
fi

# Whether the last run told of a device: its name.
is_device() {
    [ "$(cat "$here/status")" = 5 ] && [ ! -s "$here/out" ] && [ "$(cat "$here/err")" = "cubeboard: F13 device" ]
    count "$1" $?
}

# A read that fails, since there is a folder where a file should be.
lay_out "$root/tests/rows/folder_of_proofs"
run "$here/run"
is_device "a folder for the standard input"
run "$here/run" --proofs proofs
is_device "a folder for the standard input, and proofs"
rm "$here/run/proofs/2.lrat"
mkdir "$here/run/proofs/2.lrat"
run /dev/null --proofs proofs case.icnf
is_device "a folder in the place of a proof"

# A picture: the report is the same, and the file is made anew. Where it can't be written there is no report, and where there is no report for
# another cause the file is left as it is.
lay_out "$root/tests/rows/folder_of_proofs"
echo "what was there" > "$here/run/tree.svg"
run "$root/tests/rows/two_cubes_refuted.in" --map tree.svg
cmp -s "$here/out" "$root/tests/rows/two_cubes_refuted.out" && [ ! -s "$here/err" ] && [ "$(cat "$here/status")" = 0 ] \
    && [ "$(head -c 5 "$here/run/tree.svg")" = "<svg " ] && [ "$(tail -n 1 "$here/run/tree.svg")" = "</svg>" ] \
    && [ "$(grep -c '^<rect class="r" x="[0-9]*" y="64" width="1024" height="22"><title>a [12] refuted</title></rect>$' "$here/run/tree.svg")" = 2 ]
count "a picture" $?
for path in no_such_folder/tree.svg proofs; do
    run "$root/tests/rows/two_cubes_refuted.in" --map "$path"
    is_device "a picture at $path"
done
[ -d "$here/run/proofs" ] && [ ! -e "$here/run/no_such_folder" ]
count "nothing made where a picture can't be" $?
echo "what was there" > "$here/run/tree.svg"
run /dev/null --map tree.svg
[ "$(cat "$here/status")" = 3 ] && [ "$(cat "$here/run/tree.svg")" = "what was there" ]
count "no picture of a refused input" $?

# A record: the report is the same, and the file is made anew: the line with the checksum of the text up to the first label line, and that
# report. Where it can't be written there is no report; the picture, which is written first, is there.
is_record() {
    { printf 'i %s\n' "$(sha256sum < "$1" | cut -c1-64)" && cat "$here/out"; } | cmp -s - "$here/run/a.record"
}
refuted=$root/tests/rows/two_cubes_refuted
# Lines that are longer than what is read at once: a comment before each line, and blanks behind it.
awk 'BEGIN { for (i = 0; i < 100000; i++) blanks = blanks " " } { print "c" blanks; print $0 blanks }' "$refuted.in" > "$here/run/long.icnf"
run /dev/null long.icnf
has_given "$refuted.out" "$refuted.err" "$refuted.status"
count "long lines in a file" $?
run "$here/run/long.icnf"
has_given "$refuted.out" "$refuted.err" "$refuted.status"
count "long lines from the input" $?
rm "$here/run/long.icnf"
folder=$root/tests/rows/folder_of_proofs
lay_out "$folder"
echo "what was there" > "$here/run/a.record"
sed '/^l /,$d' "$refuted.in" > "$here/text"
run "$refuted.in" --record a.record
has_given "$refuted.out" "$refuted.err" "$refuted.status" && is_record "$here/text"
count "a record" $?
run /dev/null --proofs proofs --record=a.record case.icnf
has_given "$folder.out" "$folder.err" "$folder.status" && is_record "$here/run/case.icnf"
count "a record of a file with a folder of proofs" $?
printf %s "$(cat "$here/run/case.icnf")" > "$here/run/unended.icnf"
run /dev/null --proofs proofs --record a.record unended.icnf
has_given "$folder.out" "$folder.err" "$folder.status" && is_record "$here/run/unended.icnf" && ! is_record "$here/run/case.icnf"
count "a record of a file without an end of its last line" $?
rm "$here/run/a.record"
run "$refuted.in" --record a.record --map tree.svg
has_given "$refuted.out" "$refuted.err" "$refuted.status" && is_record "$here/text" && [ "$(head -c 5 "$here/run/tree.svg")" = "<svg " ]
count "a record and a picture" $?
# (the list of the open leaves takes the report's place on standard output, and not in the record)
left=$root/tests/rows/folder_without_the_first_missing_leaf
lay_out "$left"
echo m1 > "$here/list"
run /dev/null --list-open --record a.record --map tree.svg --proofs proofs case.icnf
has_given "$here/list" "$left.err" "$left.status" && [ "$(head -c 5 "$here/run/tree.svg")" = "<svg " ] \
    && { printf 'i %s\n' "$(sha256sum < "$left.icnf" | cut -c1-64)" && cat "$left.out"; } | cmp -s - "$here/run/a.record"
count "a whole record beside a list of open leaves" $?
lay_out "$root/tests/rows/formula_and_cubes_in_files"
{ printf 'p inccnf \n' && tail -n +2 "$here/run/formula.cnf" && echo && sed '/^l /,$d' "$here/run/case.icnf"; } > "$here/text"
run /dev/null --formula formula.cnf --record a.record case.icnf
has_given "$refuted.out" "$refuted.err" "$refuted.status" && is_record "$here/text"
count "a record of a formula in a file" $?
lay_out "$folder"
for path in no_such_folder/a.record proofs; do
    rm -f "$here/run/tree.svg"
    run "$refuted.in" --record "$path" --map tree.svg
    is_device "a record at $path"
    [ "$(head -c 5 "$here/run/tree.svg")" = "<svg " ]
    count "a picture where there can't be a record at $path" $?
done
echo "what was there" > "$here/run/a.record"
run /dev/null --record a.record
[ "$(cat "$here/status")" = 3 ] && [ "$(cat "$here/run/a.record")" = "what was there" ]
count "no record of a refused input" $?
refuses "can't name the same file" --record one --map one
refuses "'--log' and '--map' can't name the same file" --log one --map one
refuses "'--log' and '--record' can't name the same file" --log one --record one
[ ! -e "$here/run/one" ]
count "nothing made where two of a picture, a record and a log would be one file" $?

# A log: the report is the same, and the file, which is made anew before anything is read, gets the report's line of each proof, and no other line.
is_logged() {
    grep -e ' refuted$' -e ' rejected ' "$here/out" | sort > "$here/wanted"
    sort "$here/run/a.log" | cmp -s - "$here/wanted"
}
for row in two_cubes_refuted candidate_without_a_group proof_for_an_inner_node rejected_proof_for_an_inner_node; do
    lay_out "$root/tests/rows/$row"
    echo "what was there" > "$here/run/a.log"
    run "$root/tests/rows/$row.in" --log a.log
    has_given "$root/tests/rows/$row.out" "$root/tests/rows/$row.err" "$root/tests/rows/$row.status" && is_logged
    count "a log of $row" $?
done
for row in folder_of_proofs folder_with_missing_leaves; do
    base=$root/tests/rows/$row
    lay_out "$base"
    with_words "$base" run "$base.in" --log=a.log --progress --workers 1
    cmp -s "$here/out" "$base.out" && cmp -s "$here/status" "$base.status" && is_logged
    count "a log of $row" $?
done
run "$refuted.in" --log no_such_folder/a.log
is_device "a log in a folder that isn't there"
echo "what was there" > "$here/run/a.log"
run /dev/null --log a.log
[ "$(cat "$here/status")" = 3 ] && [ -e "$here/run/a.log" ] && [ ! -s "$here/run/a.log" ]
count "an empty log of a refused input" $?

# A run that a signal ends leaves the lines of what it has judged: here it waits for ever for the second proof.
lay_out "$folder"
rm "$here/run/proofs/2.lrat" && mkfifo "$here/run/proofs/2.lrat"
(cd "$here/run" && exec "$program" --workers 1 --log a.log --proofs proofs case.icnf < /dev/null > "$here/out" 2> "$here/err") &
tries=0
until [ -s "$here/run/a.log" ] || [ "$tries" -gt 200 ]; do sleep 0.1; tries=$((tries + 1)); done
kill -TERM $! 2> /dev/null
wait $! 2> /dev/null
[ $? -eq 143 ] && [ ! -s "$here/out" ] && [ "$(cat "$here/run/a.log")" = "$(sed -n '/^a 1 /p' "$folder.out")" ]
count "a log of a run that was ended" $?

# What is there and may not be read. Root reads anything, so the program runs as another user then.
as_another_user
for path in proofs/2.lrat proofs case.icnf; do
    lay_out "$root/tests/rows/folder_of_proofs"
    chmod -R a+rX "$here/run"
    $as_other test -x "$program" 2> /dev/null && $as_other test -r "$here/run/$path"
    reads=$?
    chmod 000 "$here/run/$path"
    if [ "$reads" -ne 0 ] || $as_other test -r "$here/run/$path"; then
        skip "$path without rights" "there is no user here whom rights keep from it"
    else
        run /dev/null --proofs proofs case.icnf
        is_device "$path without rights"
    fi
    chmod 755 "$here/run/$path"
done
as_this_user

# A report that can't be written, and an error that can't be written.
if [ -w /dev/full ]; then
    timeout 60 "$program" < "$root/tests/rows/unit_then_empty_clause.in" > /dev/full 2> "$here/err"
    echo $? > "$here/status"
    [ "$(cat "$here/status")" = 5 ] && [ "$(cat "$here/err")" = "cubeboard: F13 device" ]
    count "a full device" $?
    timeout 60 "$program" < /dev/null > "$here/out" 2> /dev/full
    echo $? > "$here/status"
    [ "$(cat "$here/status")" = 3 ] && [ ! -s "$here/out" ]
    count "a full device for the error" $?
else
    skip "a full device" "there is none here"
fi

# The examples, as bundles and as folders; the status is the one that goes with the report's last line.
for report in "$root"/examples/*.report; do
    example=${report%.report}
    case $(tail -n 1 "$report") in
        "s REFUTED") echo 0 > "$here/wanted" ;;
        *) echo 1 > "$here/wanted" ;;
    esac
    if [ -f "$example.icnf" ]; then
        run "$example.icnf"
        compare "$(basename "$example").icnf" "$report" "$here/none" "$here/wanted"
    fi
    if [ -d "$example" ]; then
        run /dev/null --proofs "$example/proofs" "$example/case.icnf"
        compare "$(basename "$example")/proofs" "$report" "$here/none" "$here/wanted"
    fi
done
finish
