#!/bin/sh
# Tries scripts/wrong_bodies.py on the crates of tests/wrong-bodies, where each file of a wrong body says in its line `# told:` how the line begins that
# has to be told of it: of wrong bodies that are refused, of right ones, which mustn't count, of a right and a wrong one that are refused at a written
# answer, which counts only with the line that says what forbids the body, and of those that can't be tried. Of the libraries' own edits it looks whether each
# can be tried. The last line counts.
root=$(CDPATH= cd -- "$(dirname -- "$0")/.." && pwd) || exit 1
. "$root/scripts/runs.sh"
cp -R "$root/tests/wrong-bodies/." "$here/run/" && mkdir "$here/run/scripts" || exit 1
cp "$root/scripts/build.py" "$root/scripts/turn.py" "$root/scripts/wrong_bodies.py" "$here/run/scripts/" && cp "$root/HANDLES" "$here/run/" || exit 1
printf 'numbers:\nlost:\n' > "$here/run/crates.txt"
# The kit wants files that end in .rt and .antt in the repository's crates alone, so here they have .txt behind that.
find "$here/run/crates" -name '*.txt' | while read -r file; do mv "$file" "${file%.txt}"; done
for crate in numbers lost; do
    python3 -c 'import sys; sys.path.insert(0, sys.argv[1]); import wrong_bodies; sys.exit(wrong_bodies.tried([sys.argv[2]], False))' \
        "$here/run/scripts" "$crate" > "$here/$crate" 2>&1
    [ $? -eq 1 ]
    count "$crate: the status is 1 where a body isn't refused" $?
    for file in "$here/run/crates/$crate/must-fail/"*.edit; do
        name=$(basename "$file" .edit)
        grep -F -q "wrong body $crate/$name: $(sed -n 's/^# told: //p' "$file")" "$here/$crate"
        count "$crate/$name: it is told as its file says" $? || cat "$here/$crate"
    done
done
grep -q '^wrong_bodies: 3 passed, 8 failed$' "$here/numbers" && grep -q '^wrong_bodies: 1 passed, 1 failed$' "$here/lost"
count "the last lines count" $?
# (this is seen at once, and not when the gate comes to the edit)
python3 -c 'import sys; sys.path.insert(0, sys.argv[1]); import wrong_bodies
faults = [(it.name, one.name, fault) for it in wrong_bodies.crates_of([])
    for one in wrong_bodies.edits_of(it.folder, []) if (fault := one.fault(it.folder))]
print(*faults, sep="\n"); sys.exit(bool(faults))' "$root/scripts" > "$here/faults" 2>&1
count "the text that each edit of the libraries changes stands in its file once" $? || cat "$here/faults"
python3 "$root/scripts/wrong_bodies.py" --help > "$here/help" 2>&1 && grep -q '^Tries the must-fail edits' "$here/help"
count "--help tells the words, and nothing is built" $?
python3 "$root/scripts/wrong_bodies.py" --turns numbers > "$here/word" 2>&1
[ $? -eq 2 ] && grep -q '^Tries the must-fail edits' "$here/word"
count "a word that isn't known is refused, and nothing is built" $?
finish
