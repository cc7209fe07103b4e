#!/bin/sh
# Runs the built program with files of other kinds, and under other names, than scripts/rows.sh does, and looks at what becomes of them:
# - a run with a picture, a record and a log makes these three files, and every other file stays as it is;
# - FILE is a named pipe, which is read once from its beginning to its end; a record goes into one, and nothing before it;
# - no input is written over, however it is named: FILE, the standard input, CNF and a proof by a path that is written otherwise, by a link, and by DIR with a
#   slash at its end. Such a run ends with F13, and no file is changed or made;
# - an output that is no plain file is written, the plain file behind the standard error keeps its lines, and the one behind the standard output is F13;
# - two outputs that are one file are F13, and that file has nothing of the one beside the other.
# scripts/false_programs.sh tries these claims with stand-ins, too. The last line counts.
root=$(CDPATH= cd -- "$(dirname -- "$0")/.." && pwd) || exit 1
. "$root/scripts/runs.sh"
build_program

# All inputs below have this report: FILE with a folder of proofs, FILE with the proofs in it, and a formula and its cubes with the folder.
refuted=$root/tests/rows/two_cubes_refuted
folder=$root/tests/rows/folder_of_proofs
apart=$root/tests/rows/formula_and_cubes_in_files
printf 'a 1 refuted\na 2 refuted\n' > "$here/lines"
python3 "$root/scripts/draw.py" "$refuted.in" "$refuted.out" > "$here/picture"
sed '/^l /,$d' "$refuted.in" > "$here/text"
{ printf 'i %s\n' "$(sha256sum < "$here/text" | cut -c1-64)" && cat "$refuted.out"; } > "$here/record"

# Makes $here/run anew with inputs of each kind, and a further name of each.
lay_inputs() {
    lay_out "$folder"
    cp "$refuted.in" "$here/run/bundle.icnf"
    cp "$apart.cnf" "$here/run/formula.cnf"
    sed '/^l /,$d' "$apart.icnf" > "$here/run/cubes.icnf"
    for name in case.icnf bundle.icnf formula.cnf cubes.icnf; do
        ln -s "$name" "$here/run/link.$name"
        ln "$here/run/$name" "$here/run/hard.$name"
    done
    ln -s proofs/1.lrat "$here/run/link.lrat"
    ln "$here/run/proofs/1.lrat" "$here/run/hard.lrat"
    rm -rf "$here/before"
    cp -R "$here/run" "$here/before"
}

# Whether all files of $here/run are as they were laid there, and there is no other.
is_kept() { diff -r "$here/before" "$here/run" > "$here/log" 2>&1; }

# Whether the last run gave the report, and its error nothing; and whether it told of a device and of nothing else.
is_refuted() { has_given "$refuted.out" "$refuted.err" "$refuted.status"; }
is_device() { [ "$(cat "$here/status")" = 5 ] && [ ! -s "$here/out" ] && [ "$(cat "$here/err")" = "cubeboard: F13 device" ]; }

# Whether a file has the lines of a log, in whichever order.
is_log() { sort "$1" | cmp -s - "$here/lines"; }

# One run with all three outputs, after which every input is as it was: what it is, the input, and the words.
keeps() {
    what=$1
    shift
    lay_inputs
    input=$1
    shift
    run "$input" --record a.record --map a.svg --log a.log "$@"
    is_refuted && cmp -s "$here/run/a.svg" "$here/picture" && is_log "$here/run/a.log" && [ "$(tail -n 1 "$here/run/a.record")" = "s REFUTED" ] \
        && rm "$here/run/a.record" "$here/run/a.svg" "$here/run/a.log" && is_kept
    count "no file is changed, $what" $?
}
keeps "FILE and a folder" "$here/none" --proofs proofs case.icnf
keeps "FILE with its proofs" "$here/none" bundle.icnf
keeps "the standard input" "$here/before/bundle.icnf"
keeps "CNF, FILE and a folder" "$here/none" --formula formula.cnf --proofs proofs cubes.icnf

# What waits for the program at a named pipe goes on when the program has ended.
release() {
    : <> "$1"
    wait "$2"
}
lay_inputs
mkfifo "$here/run/case.pipe" "$here/run/record.pipe"
(cd "$here/run" && exec timeout 60 sh -c 'cat bundle.icnf > case.pipe') 2> "$here/log" &
run "$here/none" case.pipe
release "$here/run/case.pipe" $!
is_refuted
count "FILE is a named pipe" $?
(cd "$here/run" && exec timeout 60 cat record.pipe > "$here/given") &
run "$refuted.in" --record record.pipe
release "$here/run/record.pipe" $!
is_refuted && cmp -s "$here/given" "$here/record"
count "a record goes into a named pipe" $?

# Runs that would write over an input, by this word alone and with the two others: which input it is, how it is named, the standard input and the words.
writes_over() {
    what=$1
    input=$2
    shift 2
    for more in "" "$others"; do
        run "$input" $more "$@"
        is_device && is_kept
        holds=$?
        count "$word at $what${more:+ with $more}" "$holds"
        [ "$holds" -eq 0 ] || lay_inputs
    done
}
lay_inputs
for word in --log --record --map; do
    case $word in
        --log) others="--record other.record --map other.svg" ;;
        --record) others="--map other.svg --log other.log" ;;
        --map) others="--log other.log --record other.record" ;;
    esac
    writes_over "FILE by ./" "$here/none" "$word" ./case.icnf --proofs proofs case.icnf
    writes_over "FILE by its whole path" "$here/none" "$word" "$here/run/case.icnf" --proofs proofs case.icnf
    writes_over "FILE by a way through DIR" "$here/none" "$word" proofs/../case.icnf --proofs proofs case.icnf
    writes_over "FILE by a symbolic link" "$here/none" "$word" link.case.icnf --proofs proofs case.icnf
    writes_over "FILE by a hard link" "$here/none" "$word" hard.case.icnf --proofs proofs case.icnf
    writes_over "FILE, which is named by a link" "$here/none" "$word" case.icnf --proofs proofs link.case.icnf
    writes_over "FILE with its proofs by ./" "$here/none" "$word" ./bundle.icnf bundle.icnf
    writes_over "FILE with its proofs by a hard link" "$here/none" "$word" hard.bundle.icnf bundle.icnf
    writes_over "the standard input" "$here/run/bundle.icnf" "$word" bundle.icnf
    writes_over "the standard input by a symbolic link" "$here/run/bundle.icnf" "$word" link.bundle.icnf
    writes_over "the standard input by a hard link" "$here/run/bundle.icnf" "$word" hard.bundle.icnf
    writes_over "the standard input beside DIR" "$here/run/case.icnf" "$word" case.icnf --proofs proofs
    writes_over "a proof where DIR ends in a slash" "$here/none" "$word" proofs/1.lrat --proofs proofs/ case.icnf
    writes_over "a proof by ./" "$here/none" "$word" ./proofs/2.lrat --proofs proofs case.icnf
    writes_over "a proof by a symbolic link" "$here/none" "$word" link.lrat --proofs proofs case.icnf
    writes_over "a proof by a hard link" "$here/none" "$word" hard.lrat --proofs proofs case.icnf
    writes_over "CNF by ./" "$here/none" "$word" ./formula.cnf --formula formula.cnf --proofs proofs cubes.icnf
    writes_over "CNF by a symbolic link" "$here/none" "$word" link.formula.cnf --formula formula.cnf --proofs proofs cubes.icnf
    writes_over "CNF by a hard link" "$here/none" "$word" hard.formula.cnf --formula formula.cnf --proofs proofs cubes.icnf
    writes_over "the cubes of CNF by ./" "$here/none" "$word" ./cubes.icnf --formula formula.cnf --proofs proofs cubes.icnf
done

# Whether what was written by a word is what it should be: the word and the file.
is_written() {
    case $1 in
        --log) is_log "$2" ;;
        --record) cmp -s "$2" "$here/record" ;;
        --map) cmp -s "$2" "$here/picture" ;;
    esac
}

# Outputs that are no plain file: the standard error, a pipe, and a device.
for word in --log --record --map; do
    lay_inputs
    {
        (cd "$here/run" && timeout 60 "$program" "$word" /dev/stderr --proofs proofs case.icnf) < "$here/none" 2>&1 > "$here/out"
        echo $? > "$here/status"
    } | cat > "$here/err"
    cmp -s "$here/out" "$refuted.out" && cmp -s "$here/status" "$refuted.status" && is_written "$word" "$here/err" && is_kept
    count "$word at the standard error, which is a pipe" $?
    run "$here/none" "$word" /dev/null --proofs proofs case.icnf
    is_refuted && is_kept
    count "$word at /dev/null" $?
done

# The plain files behind the standard streams, which have lines already.
printf 'the first line\nthe second line\n' > "$here/old"
lay_inputs
cp "$here/old" "$here/err"
(cd "$here/run" && timeout 60 "$program" --log /dev/stderr --proofs proofs case.icnf) < "$here/none" > "$here/out" 2>> "$here/err"
echo $? > "$here/status"
tail -n +3 "$here/err" > "$here/given"
cmp -s "$here/out" "$refuted.out" && cmp -s "$here/status" "$refuted.status" && head -n 2 "$here/err" | cmp -s - "$here/old" && is_log "$here/given" && is_kept
count "a log behind the lines of the file at the standard error" $?
for word in --record --map; do
    cp "$here/old" "$here/given"
    (cd "$here/run" && timeout 60 "$program" "$word" /dev/stdout --proofs proofs case.icnf) < "$here/none" >> "$here/given" 2> "$here/err"
    echo $? > "$here/status"
    : > "$here/out"
    is_device && cmp -s "$here/given" "$here/old" && is_kept
    count "$word at the file of the standard output" $?
done

# Two outputs at one file, which isn't there yet, and which is: how they name it, and the words.
at_one_file() {
    what=$1
    shift
    for old in "" old; do
        # (there is no hard link of a file that isn't there)
        [ "$what$old" != "a hard link" ] || continue
        lay_inputs
        rm -f "$here/run/one"
        [ -z "$old" ] || cp "$here/old" "$here/run/one"
        case $what in
            "a symbolic link") ln -s one "$here/run/other" ;;
            "a hard link") ln "$here/run/one" "$here/run/other" ;;
        esac
        run "$here/none" "$@" --workers 1 --proofs proofs case.icnf
        is_device && is_whole "$here/run/one"
        count "$1 and $3 at one file by $what${old:+, which is there}" $?
    done
}
# Whether a file isn't there, is empty, is as it was, or is one whole output.
is_whole() {
    [ ! -s "$1" ] || cmp -s "$1" "$here/old" || is_log "$1" || cmp -s "$1" "$here/record" || cmp -s "$1" "$here/picture"
}
for words in "--map --record" "--log --map" "--log --record"; do
    at_one_file ./ "${words% *}" one "${words#* }" ./one
    at_one_file "a symbolic link" "${words% *}" one "${words#* }" other
    at_one_file "a hard link" "${words% *}" one "${words#* }" other
done
finish
