#!/bin/sh
# Looks at the pages by scripts/pages.py, whose head has the claims: links that lead nowhere, also
# in the archive of scripts/package.sh; lines wider than 100 columns, also of the crates' sources;
# public words of definitions with two meanings; cells of tables with more than 15 words; examples
# that are in no source; CONTRIBUTING's table of crates; clauses that no function has, rooms that no
# crate has, names that no source has, and paths that aren't there; what is only tested, if nothing
# is named that tests it. Then it tries each claim on wrong pages and sources, each of which it has
# to refuse, and on right ones. It prints how many sentences of each page are long, and no claim
# follows from that. It runs no program. The last line counts.
root=$(CDPATH= cd -- "$(dirname -- "$0")/.." && pwd) || exit 1
. "$root/scripts/runs.sh"
claims="links archive width sources meanings cells examples crates clauses rooms tested names paths"

# A small repository whose pages are right.
right=$here/right
wide=$(printf '%099d' 0)
mkdir -p "$right/docs" "$right/scripts" "$right/tests/rows" "$right/crates/low/src"
: > "$right/tests/rows/one.in"
printf 'packed="README.md docs/IN.md"\n' > "$right/scripts/package.sh"
printf 'fn main() {\n    // a line\n    one();\n\n    two();\n}\n' > "$right/crates/low/src/lib.rt"
printf '%s\n' 'pub fn joins(it: u8) -> u8' '    requires room { it.now < 2 }' '    ensures sound { result ≡ it.now }' \
    '{' '    it' '}' '' 'pub struct Pair {' '    left: u8,' '}' '// some_name and SomeName' '' "#[tactic(auto, using($wide))]" > "$right/crates/low/src/two.rt"
printf '%s\n' 'low: clap' 'high tests_may=Wait: low hex  # above it' > "$right/crates.txt"
printf '%s\n' '| Crate | What it is about | Stands on |' '|---|---|---|' '| low | one | clap |' \
    '| high | another | low, hex |' '' '- an item whose link [goes' '  on](docs/IN.md#a-heading-of-it)' \
    '' '    `no [link](nowhere) in a block`' > "$right/CONTRIBUTING.md"
printf '%s\n' '# A page' '' 'See [it](docs/IN.md), `no [link](nowhere)` and [out](docs/OUT.md).' '' \
    'A link that is dead in the archive of the programs leads to a file of the repository.' '' '## As a library' '' \
    'From [lib.rt](crates/low/src/lib.rt):' '' '    // a line' '    one();' '' '    two();' > "$right/README.md"
printf '%s\n' '# In the archive' '' '## A `heading`, of it' '' 'See [above](#a-heading-of-it).' '' \
    'Clauses `sound`,' '`room` of `joins`, a field `left` of `Pair`, `word` of `Thing`. Tried by scripts/package.sh,' \
    'tests/rows/one, src/two.rt, crates/NAME/gone, crates/low/out/gone, tests/*.gone.' '' \
    '`some_name`, `SomeName` and `Pair::left`, `some gone_word`, `gone`.' '' \
    'Clauses without a function are those of `joins`. So it is (`room`, `sound`; so), (`no`, `one`).' '' \
    '    `gone` of `joins`, `gone_name`, scripts/gone.sh' > "$right/docs/IN.md"
cell='[one](../README.md) two `three of a span` four five six seven eight nine ten eleven twelve thirteen fourteen fifteen'
printf '%s\n' '# Out of it' '' 'See [README](../README.md).' '' '| Fifteen words | None |' '|---|---|' \
    "| $cell | |" > "$right/docs/OUT.md"
printf '%s\n' '# low' '' 'A sketch, which is in no source:' '' '    three();' '' '- **`joins`** (Room). `sound` (Room, Other of high), 0: it is so (A Sentence).' \
    '  - `room`: it asks for it. As `gone`' '' '`gone`: no item.' '' 'Only tested, by crates/some_suite: all.' \
    > "$right/crates/low/README.md"
mkdir -p "$right/crates/some_suite" "$right/crates/low/specs/Inner" "$right/crates/high/specs"
printf '%s\n' 'abbrev pub a_word : Type 0' 'abbrev its_own : Type 0' 'unfoldable pub its : Type 0' > "$right/crates/low/specs/Room.antt"
printf '%s\n' 'pub record a_word : Type 0 where' > "$right/crates/low/specs/Inner/Room.antt"
printf '%s\n' "use Rattle.low.{$wide}" '-- a definition' 'pub data AWord : Type 0 where' '  pub its : Type 0' \
    'abbrev its_own : Type 0' > "$right/crates/high/specs/Other.antt"

# Makes a wrong page: the claim that has to refuse it, what is wrong, the file, and the sed that makes it so.
wrong() {
    made=$((made + 1))
    cp -r "$right" "$here/wrong.$made"
    sed -i "$4" "$here/wrong.$made/$3"
    cmp -s "$right/$3" "$here/wrong.$made/$3" || echo "$made $1 $2" >> "$here/wrongs"
}

made=0
wrong links "a file that isn't there" README.md 's/docs.IN.md/docs\/ON.md/'
wrong links "a heading that isn't there" docs/IN.md 's/#a-heading-of-it/#a-heading/'
wrong links "a heading in another page that isn't there, by a link over two lines" CONTRIBUTING.md 's/#a-heading/#heading/'
wrong links "a path out of the repository" docs/OUT.md 's/\.\.\/README/..\/..\/README/'
wrong archive "a link out of it" README.md '/^A link that is dead/d'
wrong archive "a link out of it on another page" docs/IN.md '$a [out](OUT.md)'
wrong archive "a page of it that isn't there" scripts/package.sh 's/IN/ON/'
wrong width "a wide line" docs/OUT.md "3s/^/$wide /"
wrong width "a wide item of a list" CONTRIBUTING.md "s/^- an item/- $wide an item/"
wrong sources "a wide comment of code" crates/low/src/two.rt "s,^// some,// $wide some,"
wrong sources "a wide line of code behind an attribute" crates/low/src/two.rt "s/^#.*/& fn $wide() {}/"
wrong sources "a wide line of a definition" crates/high/specs/Other.antt "s/a definition/& $wide/"
wrong sources "a wide \`use\` of two names" crates/high/specs/Other.antt 's/{/{other, /'
wrong meanings "a public word of two crates" crates/high/specs/Other.antt 's/AWord/a_word/'
wrong meanings "a record of two crates" crates/high/specs/Other.antt 's/data AWord/record a_word/'
wrong meanings "a definition that isn't unfolded, of two crates" crates/high/specs/Other.antt 's/^abbrev its_own/unfoldable pub a_word/'
wrong meanings "a word with its type alone before it" crates/high/specs/Other.antt 's/^  pub its/pub its/'
wrong cells "a cell of sixteen words" docs/OUT.md 's/ fifteen/ fifteen sixteen/'
wrong cells "a last cell of sixteen words" docs/OUT.md "s,| |$,| sixteen $cell |,"
wrong cells "a cell whose link has a word more" docs/OUT.md 's/\[one\]/[or one]/'
wrong cells "a cell whose code span is none" docs/OUT.md 's/`//g'
wrong cells "a head of sixteen words" docs/OUT.md "s/Fifteen/$(seq -s ' ' 14) fifteen/"
wrong examples "a line that isn't in the source" README.md 's/^    one();/    three();/'
wrong examples "a line that is left out" README.md '/^    one();/{N;d}'
wrong examples "a source that doesn't have it any more" crates/low/src/lib.rt 's/two/three/'
wrong examples "an example without a source" README.md 's/(crates.low.src.lib.rt)//'
wrong examples "one that isn't called a sketch" crates/low/README.md 's/^A sketch, w/W/'
wrong crates "a crate that stands on another one" crates.txt 's/low: clap/low: hex/'
wrong crates "a crate that isn't in the table" crates.txt '$a top: high'
wrong crates "a crate that isn't in crates.txt" crates.txt '/^high/d'
wrong crates "another order" crates.txt '1h; 1d; 2G'
wrong clauses "a clause that no function has" docs/IN.md 's/`room`/`rooms`/'
wrong clauses "the first of two clauses that isn't there, on the line before" docs/IN.md 's/`sound`/`bound`/'
wrong clauses "a function that isn't there" docs/IN.md 's/`joins`/`join`/'
wrong clauses "a clause that has another name now" crates/low/src/two.rt 's/ensures sound/ensures sounds/'
wrong clauses "clauses of two functions" crates/low/src/two.rt 's/^    ensures sound/fn other()\n&/'
wrong clauses "a field that isn't there" docs/IN.md 's/`left`/`right`/'
wrong clauses "one of two clauses without a function" docs/IN.md 's/`sound`; so/`sounds`; so/'
wrong clauses "a name in a crate's README that is no clause" crates/low/README.md 's/`sound`/`bound`/'
wrong clauses "such a name in an item below" crates/low/README.md 's/`room`/`sound`, `rooms`/'
wrong rooms "a room that the crate hasn't" crates/low/README.md 's/(Room)/(Rooms)/'
wrong rooms "a room that another crate hasn't" crates/low/README.md 's/Other of high/Others of high/'
wrong rooms "a room of another crate without its name" crates/low/README.md 's/Other of high/Other/'
wrong tested "no crate that tests it" crates/low/README.md 's/, by crates.some_suite//'
wrong names "a name that no source has" docs/IN.md 's/`some_name`/`some_names`/'
wrong names "a type that no source has" docs/IN.md 's/`SomeName`/`SomeNames`/'
wrong names "a field of a type that no source has" docs/IN.md 's/Pair::left/Pair::right/'
wrong names "a name that a source has no more" crates/low/src/two.rt 's/some_name/some_names/'
wrong paths "a script that isn't there" docs/IN.md 's/by scripts.package/by scripts\/pack/'
wrong paths "a row that isn't there" docs/IN.md 's/rows.one/rows\/two/'
wrong paths "a file of a crate that isn't there" docs/IN.md 's/src.two/src\/three/'

# One call looks at all of them. What it prints begins with the claim and the folder.
python3 "$root/scripts/pages.py" "$root" "$right" "$here"/wrong.* > "$here/found" 2> "$here/err"
[ $? -eq 1 ] && [ ! -s "$here/err" ]
count "pages.py looks at all of it: $(tail -n 1 "$here/err")" $?
for claim in $claims; do
    ! grep -F "$claim: $root/" "$here/found"
    count "the claim $claim" $?
    ! grep -F "$claim: $right/" "$here/found"
    count "the claim $claim on pages that are right" $?
done
[ "$(wc -l < "$here/wrongs")" -eq "$made" ]
count "each wrong page differs from the right one" $?
while read -r number claim what; do
    [ "$(sed -n "s|: $here/wrong.$number/.*||p" "$here/found" | uniq)" = "$claim" ]
    count "the claim $claim, and no other, refuses $what" $?
done < "$here/wrongs"

# What is written into a wrong table is the right one.
cp -r "$right" "$here/written"
sed -i 's/low, hex/low/' "$here/written/CONTRIBUTING.md"
python3 "$root/scripts/pages.py" --write "$here/written" && cmp -s "$right/CONTRIBUTING.md" "$here/written/CONTRIBUTING.md"
count "the table of crates is written" $?

python3 "$root/scripts/pages.py" --sentences "$root"
finish
