#!/bin/sh
# Runs the commands of README.md, its indented lines, from top to bottom in a folder with the launchers and the examples, and looks whether what the page
# says of them holds. A block that begins with `$ ` is a command and what it prints, where the line `..` stands for any lines. The other blocks of commands
# run on the example van-der-waerden-3-6; no solver is called, in its place the leaf gets the example's proof, and only for a formula with the bytes of the
# leaf. The names of docs/WORDS.md have to stand in the files that it says. Links, and lines that aren't commands, are for scripts/pages.sh.
# `./check` and scripts/package.sh, which the page names, aren't run. The last line counts.
root=$(CDPATH= cd -- "$(dirname -- "$0")/.." && pwd) || exit 1
. "$root/scripts/runs.sh"
build_program
build_join
example=$root/examples/van-der-waerden-3-6

# The page calls the launchers of the folder that it is in: other programs that are tried stand in their place.
ln -s "$root/examples" "$here/run/"
ln -s "${CUBEBOARD_PROGRAM:-$root/cubeboard}" "$here/run/cubeboard"
ln -s "${CUBEJOIN_PROGRAM:-$root/cubejoin}" "$here/run/cubejoin"

cut_page "$root/README.md"
blocks=$(ls "$here/page" | tr '\n' ,)
if [ "$blocks" != "as a library.1,as a library.2,first run.1,first run.2,install.1,what a report means.1,your own formula.1,your own formula.2," ]; then
    fail "the page has the blocks $blocks which this script doesn't know"
    finish
fi

# Whether the last run has printed these lines, on either stream: a file.
has_printed() {
    cat "$here/out" "$here/err" | awk '
        NR == FNR { wanted[++n] = $0; if ($0 == "..") gap = n; next }
        { printed[++m] = $0 }
        END {
            for (i = 1; i <= n && i != gap; i++) if (printed[i] != wanted[i]) exit 1
            for (i = n; i > gap && gap; i--) if (printed[m - n + i] != wanted[i]) exit 1
            exit gap ? m < n : m != n
        }' "$1" -
}

# A block of a command and what it prints: its name, and the status.
shown() {
    sed -n '1s/^\$ //p' "$here/page/$1" > "$here/command"
    sed 1d "$here/page/$1" > "$here/wanted"
    note "$here/none" sh "$here/command"
    has_printed "$here/wanted" && [ "$(cat "$here/status")" -eq "$2" ]
    count "what the page shows of $(cat "$here/command")" $?
}

# A refusal, by a line on standard error and nothing else: the claim, the status, the line, the command.
refused() {
    claim=$1
    wanted=$2
    line=$3
    shift 3
    note "$here/none" "$@"
    [ ! -s "$here/out" ] && [ "$(cat "$here/err")" = "$line" ] && [ "$(cat "$here/status")" -eq "$wanted" ]
    count "$claim" $?
}

shown "first run.1" 0
shown "first run.2" 1
shown "install.1" 2

# The leaf of the first cube as the solver has to get it, and the command that solves it.
literals=$(sed -n '1s/^a \(.*\) 0$/\1/p' "$example/cubes")
{
    echo "p cnf 32 $((327 + $(echo "$literals" | wc -w)))"
    grep -v '^[cp]' "$example/formula.cnf"
    for literal in $literals; do echo "$literal 0"; done
} > "$here/leaf"
printf '%s\n' '#!/bin/sh' "cmp -s \"\$1\" '$here/leaf' && cp '$example/proofs/1.lrat' \"\$2\" && exit 20" > "$here/solver"
chmod +x "$here/solver"
cp "$example/formula.cnf" "$example/cubes" "$here/run/"
note "$here/none" env SOLVE="$here/solver" sh "$here/page/your own formula.1"
cmp -s "$here/run/case.icnf" "$example/case.icnf" && grep -q '^t 32 0 ' "$here/run/report" && grep -q -x 'o 0' "$here/run/report"
count "your own formula: the bundle, and the report without proofs" $?
[ "$(ls "$here/run/proofs")" = 1.lrat ] && cmp -s "$here/run/proofs/1.lrat" "$example/proofs/1.lrat"
count "your own formula: the proof of a leaf" $?
[ "$(grep -c '^a .* refuted$' "$here/out")" -eq 1 ] && [ "$(tail -n 1 "$here/out")" = "s OPEN" ] && [ "$(cat "$here/status")" -eq 1 ] &&
    grep -q '^cubeboard: 1 of 1 judged, ' "$here/err"
count "your own formula: the check with one proof" $?
cp "$example"/proofs/* "$here/run/proofs/"
tail -n 1 "$here/page/your own formula.1" > "$here/command"
note "$here/none" sh "$here/command"
cmp -s "$here/out" "$example.report" && [ "$(cat "$here/status")" -eq 0 ]
count "your own formula: the check with all proofs" $?

note "$here/none" ./cubeboard --formula formula.cnf --proofs proofs cubes
cmp -s "$here/out" "$example.report" && [ "$(cat "$here/status")" -eq 0 ]
count "your own formula: the check of the published file" $?

# The table of what a report says, but for memory, which scripts/refused.sh tries.
{ sed '/^a /d' "$example/case.icnf"; printf '%s\n' 'a 1 2 0' 'a 1 -2 0' 'a 3 0'; } > "$here/run/bad.icnf"
refused "the table: cubes that aren't of one tree" 3 "cubeboard: F8 cubes 1 and 3 are not of one tree" ./cubeboard bad.icnf
refused "the table: a file that isn't there" 5 "cubeboard: F13 device" ./cubeboard no_such_file
note "$here/none" ./cubeboard --help
[ ! -s "$here/out" ] && grep -q Usage "$here/err" && [ "$(cat "$here/status")" -eq 2 ]
count "the table: the help" $?

# Two runs with half of the proofs each, and what the join says of their records, of the first one alone and of one on another formula.
mkdir "$here/run/proofs.1" "$here/run/proofs.2"
cp "$example"/proofs/1*.lrat "$here/run/proofs.1/"
for proof in "$example"/proofs/*; do
    [ -e "$here/run/proofs.1/$(basename "$proof")" ] || cp "$proof" "$here/run/proofs.2/"
done
note "$here/none" sh "$here/page/your own formula.2"
cmp -s "$here/out" "$example.report" && [ ! -s "$here/err" ] && [ "$(cat "$here/status")" -eq 0 ]
count "records: the join gives the report of one run" $?
note "$here/none" ./cubejoin case.icnf 1.record
cmp -s "$here/out" "$here/run/1.report" && [ "$(tail -n 1 "$here/out")" = "s OPEN" ] && [ "$(cat "$here/status")" -eq 1 ]
count "records: that of the first run alone is open" $?
sed '2s/ 0$/ 0 0/' "$example/case.icnf" > "$here/run/other.icnf"
note "$here/none" ./cubeboard --record other.record other.icnf
refused "records: one of another formula is refused" 3 "cubejoin: F15 report 2" ./cubejoin case.icnf 1.record other.record

# What else the page says that can be looked up.
told=$(sed -n 's/^.*\[\([0-9]* definitions in [0-9]* lines\)\].*$/\1/p' "$root/README.md")
[ "$told" = "$(sed -n 's/^\([0-9]* definitions\), \([0-9]* lines\):$/\1 in \2/p' "$root/docs/DEFINITIONS.md" | head -n 1)" ]
count "what a report means: so many definitions" $?

# The names of docs/WORDS.md, each of which stands in the file behind it: a line for each, the name and the file.
tr '\n' ' ' < "$root/docs/WORDS.md" | tr -s ' ' | sed 's/` \(and\|in\) `/`\1`/g' | grep -o '\(`[^` ]*`and\)*`[^` ]*`in`[a-z_]*/[^` ]*`' |
    sed 's/`and`/ /g; s/`in`/ /; s/`//g' | awk '{ for (i = 1; i < NF; i++) print $i, $NF }' > "$here/words"
while read -r name file; do
    grep -q -w -F -e "$name" "$root/crates/$file" 2> /dev/null || echo "$name isn't in $file"
done < "$here/words" > "$here/missing"
[ "$(wc -l < "$here/words")" -gt 100 ] && [ ! -s "$here/missing" ]
count "the words of docs/WORDS.md stand where it says: $(head -n 1 "$here/missing")" $?
finish
