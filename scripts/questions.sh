#!/bin/sh
# Runs the commands of docs/FORMATS.md under "Questions to a report" on the report and the bundle of tests/questions, and compares
# what they print with the file `answers` there, where a line `--` stands between two of them; then on the reports of the examples, and
# looks whether their answers fit together. The report and the answers were written from the formats; the program has to write that report,
# too. The last line counts.
root=$(CDPATH= cd -- "$(dirname -- "$0")/.." && pwd) || exit 1
. "$root/scripts/runs.sh"
build_program

cut_page "$root/docs/FORMATS.md"
blocks=$(ls "$here/page" | sed -n 's/^questions to a report\.//p' | tr '\n' ' ')
[ "$blocks" = "1 2 3 4 5 6 7 " ]
count "the page has seven questions" $?

# The page calls the program by its name.
mkdir "$here/bin"
printf '#!/bin/sh\nexec "%s" "$@"\n' "$program" > "$here/bin/cubeboard"
chmod +x "$here/bin/cubeboard"

# Asks one of them in the folder of the report: its number.
ask() {
    (cd "$here/run" && PATH="$here/bin:$PATH" sh "$here/page/questions to a report.$1" 2>&1)
}

# How many lines its answer has: its number.
lines_of() {
    ask "$1" | wc -l
}

# The report of tests/questions is that of the bundle there, which is open.
echo 1 > "$here/wanted"
run /dev/null "$root/tests/questions/case.icnf"
compare "the report is the bundle's" "$root/tests/questions/report" "$here/none" "$here/wanted"

cp "$root/tests/questions/report" "$root/tests/questions/case.icnf" "$here/run/"
for number in 1 2 3 4 5 6 7; do
    [ "$number" -eq 1 ] || echo "--"
    ask "$number"
done > "$here/answers"
cmp -s "$here/answers" "$root/tests/questions/answers"
count "the answers are those of tests/questions" $?

# Each leaf that is left has no accepted proof of its own; each open branch is one cube and has one label; nothing is left where
# nothing is open.
for report in "$root"/examples/*.report; do
    example=${report%.report}
    cp "$report" "$here/run/report"
    rm -rf "$here/run/proofs"
    if [ -d "$example" ]; then cp -r "$example/case.icnf" "$example/proofs" "$here/run/"; else cp "$example.icnf" "$here/run/case.icnf"; fi
    open=$(grep -c '^o ' "$report")
    [ "$(lines_of 3)" -eq "$(ask 2)" ] && [ "$(lines_of 6)" -le "$(ask 2)" ] && [ "$(lines_of 6)" -ge "$open" ] &&
        [ "$(lines_of 5)" -eq "$open" ] && [ "$(lines_of 7)" -eq "$open" ]
    count "$(basename "$example"): the answers fit together" $?
done
finish
