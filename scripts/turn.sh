#!/bin/sh
# Tries scripts/turn.py in copies of this folder under a stand-in for the kit, which proves nothing and notes on which crate it is called, with stand-ins for
# the scripts that a turn calls: what a turn proves, tries, leaves out and says, and what it takes from the launchers. Then it tries wrong turns, each of which
# a claim has to refuse. It takes no proof. The last line counts.
root=$(CDPATH= cd -- "$(dirname -- "$0")/.." && pwd) || exit 1
here=$(mktemp -d) || exit 1
trap 'rm -rf "$here"' EXIT
name=turn
passed=0
failed=0
. "$root/scripts/launcher_claims.sh"

# What each copy is made of: this folder without what no turn looks at, and of the proofs those of mark_board alone, since these claims read none of the others.
make_base() {
    copy_folder
    find "$here/copy/crates" -path '*/proofs/*' ! -path '*/mark_board/*' -type f -delete
    rm -rf "$here/copy/tests" "$here/copy/docs"
    mv "$here/copy" "$here/base"
}

# A copy whose scripts note that they were called, with their words; the one that $FAILS names fails.
copy_with_notes() {
    rm -rf "$here/copy"
    cp -r "$here/base" "$here/copy"
    for script in rows explain files pipes picture questions cluster threads refused; do
        printf '#!/bin/sh\necho "%s $*" >> "$HERE/tried"\n[ "$FAILS" != %s ]\n' "$script" "$script" > "$here/copy/scripts/$script.sh"
    done
    cat > "$here/copy/scripts/wrong_bodies.py" << 'WRONG'
import os, sys
open(os.environ["HERE"] + "/tried", "a").write("wrong " + " ".join(sys.argv[1:]) + "\n")
WRONG
    sed -i 's/^    \*) exit 1 ;;/    try) echo "tests ${PWD##*\/} $*" >> "$HERE\/tried" ;;\n&/' "$here/bin/rt"
}

# Makes a turn: the claim, the status that is wanted, the crates that it has to prove, what it has to try (both sorted), and the words.
turn() {
    claim=$1 wanted=$2 crates=$3 tried=$4
    shift 4
    : > "$here/notes"
    : > "$here/tried"
    sh "$here/copy/check" --quick "$@" < /dev/null > "$here/out" 2> "$here/err"
    [ $? -eq "$wanted" ] && [ "$(sort "$here/notes")" = "$crates" ] && [ "$(sort "$here/tried")" = "$tried" ]
    count "$claim" $? || cat "$here/err"
}

# The same words, a line each, sorted.
lines() {
    printf '%s\n' "$@" | sort
}

# Changes a body of each of these crates.
changes() {
    for it; do echo "// more" >> "$(find "$here/copy/crates/$it/src" -type f | sort | head -n 1)"; done
}

# Adds a line to the first file of a crate with this name below this folder, `*` for any: the crate, the folder, the name.
adds() {
    echo "$4" >> "$(find "$here/copy/crates/$1/$2" -type f -name "$3" | sort | head -n 1)"
}

# The suites above a crate, each with its tests.
tests_above() {
    reach above "$1" | grep 'suite$' | sed 's/.*/tests & try --test/'
}

claims_of_turns() {
    all=$({ reach below cubeboard && reach below cubejoin; } | sort -u)
    scripts="cluster loop
explain 
files 
picture 
pipes 
questions 
refused 
rows 
threads "
    turn "the first turn proves all that the programs stand on, and tries rows and scripts alone" 0 "$all" "$scripts"
    grep -q '^turn: left out: all wrong bodies, all tests; ' "$here/err" && tail -n 1 "$here/err" | grep -q '^turn: passed, after [0-9]* s\. .* no gate: that is \./check$'
    count "it says what is left out, and that it is no gate" $?
    turn "where nothing has changed it proves nothing, and tries the rows" 0 "" "rows "
    changes mark_board
    above=$(reach above mark_board | grep -x -F "$all")
    alone=$(lines cubeboard cubejoin mark_board)
    mark="$({ lines "picture " "rows " "wrong --turn mark_board" && tests_above mark_board; } | sort)"
    FAILS=rows
    export FAILS
    turn "a crate with another body is proved, and the programs; its wrong bodies, suites and scripts are tried, and where one fails the status is 1" 1 "$alone" "$mark"
    grep -q '^turn: 1 failed: rows, ' "$here/err"
    count "what has failed is told" $?
    FAILS=
    turn "after a turn that failed the same is tried again" 0 "" "$mark"
    grep -q '^turn: left out: .*threads.*; the proofs of tests; ' "$here/err"
    count "what is left out is told" $?
    turn "and once it has passed, no more" 0 "" "rows "
    adds mark_board proofs Answers.antt "-- more"
    turn "so it is with another proof of a function" 0 "$alone" "$mark"
    adds mark_board src "*.rt" "// ensures more"
    turn "all above a crate with another contract is proved" 0 "$above" "$mark"
    adds mark_board src "*.rt" "// crosses threads"
    turn "and one that says something else of its types" 0 "$above" "$mark"
    adds mark_board specs "*.antt" "-- more"
    turn "and with another definition" 0 "$above" "$mark"
    echo "-- more" >> "$here/copy/crates/mark_board/proofs/Lib.antt"
    turn "and with other lemmas" 0 "$above" "$mark"
    turn "a crate that is named is tried" 0 "" "$({ lines "picture " "rows " "wrong --turn tree_map" && tests_above tree_map; } | sort)" tree_map
    turn "a crate that there isn't is told" 70 "" "" no_such_crate
    changes suite
    turn "a suite that has changed is tried and not proved" 0 "" "$(lines "rows " "tests suite try --test")"
    adds cnf_text src "*.rt" "// ensures more"
    REFUSED=cnf_text
    export REFUSED
    turn "where a crate isn't proved nothing above it is, and nothing is tried" 70 cnf_text ""
    grep -q '^a goal of cnf_text stays open$' "$here/err" && grep -q "^turn: the crate cnf_text isn't proved; " "$here/err"
    count "what was said of it is told" $?
    REFUSED=
}

# Turns and launchers have nothing of each other.
claims_beside_launchers() {
    rm -rf "$here"/copy/crates/*/out
    call "the launcher takes nothing from turns" 7 "$(reach below cubeboard)"
    turn "nor a turn from launchers" 0 "$all" "$scripts"
    call "and it leaves the launcher's program as it was" 7 ""
    changes mark_board
    turn "what has changed is proved" 0 "$alone" "$mark"
    call "and proved once more for the launcher, with all above it" 7 "$(reach above mark_board | of_program)"
    turn "of which the turn takes nothing" 0 "" "rows "
    sh "$here/copy/check" --other > /dev/null 2>&1
    [ $? -eq 2 ]
    count "other words are refused" $?
}

claims_of_all() {
    claims_of_turns
    claims_beside_launchers
}

# Wrong turns: the name and what `sed` makes of turn.py.
wrong() {
    copy_with_notes
    sed "$2" "$root/scripts/turn.py" > "$here/copy/scripts/turn.py"
    if cmp -s "$root/scripts/turn.py" "$here/copy/scripts/turn.py"; then
        count "the wrong turn \"$1\" can be made" 1
        return
    fi
    (is_wrong=1 && failed=0 && claims_of_all > "$here/told" 2>&1)
    [ $? -ne 0 ]
    count "a turn with $1 is refused" $?
}

stand_in
make_base
copy_with_notes
claims_of_all
wrong "a failed turn taken as passed" 's/^    if not failed:$/    if True:/'
wrong "status 0 whatever fails" 's/^    return 1 if failed else 0/    return 0/'
wrong "rows left out" 's/^    tries.script("rows")/    pass/'
wrong "no wrong bodies" 's/^    for name in wrong:/    for name in []:/'
wrong "the wrong bodies of all crates" 's/for it in tried if (build.ROOT/for it in build.lines_of_crates() if (build.ROOT/'
wrong "no tests" 's/^    for name in above:/    for name in []:/'
wrong "only the first program" 's/^PROGRAMS = .*/PROGRAMS = ("cubeboard",)/'
wrong "what is named left out" 's/^    tried = {\*names} | /    tried = /'
wrong "libraries laid over the launcher's" 's/^        self.libraries = build.SHARED .*/        pass/'
wrong "contracts passed over" 's/for part in ("interface", "lang.antt")/for part in ("lang\/antt",)/'
wrong "definitions and lemmas passed over" 's/for part in ("interface", "lang.antt")/for part in ("interface",)/'
wrong "what a library says of its types passed over" 's/^    made = hashlib.sha256(".n".join(.*/    made = hashlib.sha256()/'
wrong "a sum taken as stated" 's/^OWN_LINES = .*/OWN_LINES = ("checked ",)/'
wrong "the proofs of functions taken as stated" 's/^OWN = .*/OWN = {"made.json"}/'
wrong "all above a body proved" 's/^        self.sum_file(crate).unlink(missing_ok=True)/        super().forget(crate)/'
wrong "only what a crate names looked at" 's/for it in below(crate)\]/for it in crate.lower]/'
wrong "programs of the old bodies" 's/^        if crate.is_program:$/        if False:/'
wrong "silence on what is left out" 's/^    build.say(f"left out: .*/    pass/'
wrong "a word of a gate" 's/and no gate: that is/as good as/'
finish_turn() {
    echo "$name: $passed passed, $failed failed"
    [ "$failed" -eq 0 ]
}
finish_turn
