#!/bin/sh
# Tries scripts/gate.py on a repository of five crates under a stand-in for the kit, which proves nothing: when wrong bodies are tried, over which libraries, what
# the status is, and what is handed over, when. Then it tries wrong gates, each of which a claim has to refuse. It takes no proof.
# The last line counts.
root=$(CDPATH= cd -- "$(dirname -- "$0")/.." && pwd) || exit 1
here=$(mktemp -d) || exit 1
trap 'rm -rf "$here"' EXIT
name=gate
passed=0
failed=0
. "$root/scripts/launcher_claims.sh"

# `rt ci` says of each crate that it is proved, when it has made its library, after a while, and of
# $KEPT that an earlier run has proved it; but of $UNPROVED that it isn't, nor what stands on it. It notes
# what it finds below must-fail/ and its priority. `rattle` refuses each function, but for $RIGHT, and each crate whose libraries aren't there; it notes the crate.
stand_in_for_gates() {
    stand_in
    cat > "$here/bin/rt" << 'RT'
#!/bin/sh
case $1 in
    version) cat "$HERE/version" ;;
    doc) echo "$HERE/kit/START-HERE.md" ;;
    ci)
        find crates -path '*must-fail*' -name '*.edit' > "$HERE/edits"
        nice > "$HERE/priority"
        cat /proc/self/autogroup > "$HERE/session" 2> /dev/null
        for crate in low suite cubeboard cubejoin top; do
            [ "$crate" != "$UNPROVED" ] || { echo "rt: $crate NOT PROVED"; echo "0 passed, 1 failed"; exit 1; }
            sleep 0.2
            tries=0
            while [ "$crate" = top ] && [ ! -e "$HERE/mark" ] && [ "$tries" -lt 30 ]; do sleep 0.1 && tries=$((tries + 1)); done
            [ ! -e "$HERE/mark" ] || echo "$crate" >> "$HERE/behind"
            mkdir -p "crates/$crate/out/rlib/$crate.rlib"
            if [ "$crate" = "$KEPT" ]; then
                echo "rt: $crate is kept: an earlier run on this machine proved the same files"
            else
                echo "rt: $crate proved"
            fi
            [ "$crate" = "$KEPT" ] || echo "rt: $crate: its tests are proved"
        done
        sleep 0.3
        echo "${FAILS:-0} failed"
        exit "${FAILS:-0}"
        ;;
    *) exit 1 ;;
esac
RT
    cat > "$here/kit/bin/rattle" << 'RATTLE'
#!/bin/sh
while [ $# -gt 0 ]; do
    case $1 in
        --crate-name) crate=$2 ;;
        --extern) lower="$lower ${2#*=}" ;;
        -L) searched="$searched ${2#dependency=}" ;;
        --only) functions="$functions $2" ;;
    esac
    shift
done
echo "$crate $(nice)" >> "$HERE/notes"
cat /proc/self/autogroup >> "$HERE/sessions" 2> /dev/null
for it in $lower; do
    case $it in */kit/*) ;; *) [ -d "$it" ] || { echo "error: $it isn't there"; exit 1; } ;; esac
done
case "$crate $searched" in
    top*/low/out/rlib* | cubeboard* | cubejoin* | suite* | low*) ;;
    *) echo "error: low isn't found"; exit 1 ;;
esac
for it in $functions; do
    if [ "$crate" = "$RIGHT" ]; then echo "fn $crate::$it: proved"; else echo "fn $crate::$it: a goal is open: it did not prove"; fi
done
exit 1
RATTLE
}

# A repository of crates with a wrong body each.
copy_of_crates() {
    rm -rf "$here/copy"
    mkdir -p "$here/copy/scripts"
    cp "$root/HANDLES" "$here/copy/"
    cp "$root/scripts/build.py" "$root/scripts/turn.py" "$root/scripts/wrong_bodies.py" "$root/scripts/gate.py" "$here/copy/scripts/"
    printf 'low:\nsuite: low\ncubeboard: low\ncubejoin: low\ntop: cubeboard\n' > "$here/copy/crates.txt"
    for crate in low suite cubeboard cubejoin top; do
        mkdir -p "$here/copy/crates/$crate/src" "$here/copy/crates/$crate/must-fail"
        printf '1\n' > "$here/copy/crates/$crate/src/lib.rt"
        printf '# function: one\nfile: src/lib.rt\nold: 1\nnew: 2\n' > "$here/copy/crates/$crate/must-fail/01-one-two.edit"
    done
}

# The crates whose wrong bodies were tried.
tried() {
    cut -d ' ' -f 1 "$here/notes" | sort -u | tr '\n' ' '
}

# Calls the gate: the claim and the status that is wanted; and where `rt ci` doesn't fail, so that nothing is given up, the crates whose wrong bodies have to be
# tried, and the last line.
gate() {
    rm -rf "$here"/copy/crates/*/out "$here/made" "$here/mark"
    : > "$here/notes"
    : > "$here/sessions"
    : > "$here/behind"
    # (in a session of its own, whose priority a wrong gate may lower)
    setsid -w sh -c 'python3 "$0" "$@"; exit $?' "$here/copy/scripts/gate.py" "$here/made" "$here/mark" < /dev/null > "$here/out" 2>&1
    [ $? -eq "$2" ] && { [ $# -eq 2 ] || { [ "$(tried)" = "$3" ] && [ "$(tail -n 1 "$here/out")" = "$4" ]; }; }
    count "$1" $? || cat "$here/out"
}

# Whether what `rt ci` made of these crates has been handed over, and of no others.
is_handed_over() {
    [ "$(cd "$here/copy/crates" && find . -path '*/out/rlib/*.rlib' | sed 's/.*\///; s/[.]rlib$//' | sort | tr '\n' ' ')" = "$1" ]
}

claims_of_gates() {
    all="cubeboard cubejoin low suite top "
    gate "where each is refused the status is 0, and each is counted" 0 "$all" "wrong_bodies: 5 passed, 0 failed"
    is_handed_over "cubeboard cubejoin low suite " && [ -e "$here/mark" ] && [ "$(cat "$here/behind")" = top ]
    count "what rt ci made is handed over as soon as both programs and the tests of suite are proved" $?
    [ ! -s "$here/edits" ] && [ "$(ls "$here"/copy/crates/*/must-fail/*.edit | wc -l)" -eq 5 ]
    count "rt ci is given no edit, and they stay where they are" $?
    [ "$(cat "$here/priority")" -lt 19 ] && ! grep -v -q ' 19$' "$here/notes"
    count "wrong bodies have the lowest priority, and rt ci has not" $?
    # (where the kernel doesn't share processors out to sessions first, none has a priority)
    if [ -s "$here/session" ]; then
        ! grep -q ' nice 19$' "$here/session" && ! grep -v -q ' nice 19$' "$here/sessions"
        count "so has their session, and that of rt ci has not" $?
    fi
    RIGHT=cubejoin
    export RIGHT
    gate "where one isn't refused the status is 1" 1 "$all" "wrong_bodies: 4 passed, 1 failed"
    grep -q '^wrong body cubejoin/01-one-two: FAILED: NOT REFUSED' "$here/out"
    count "it is told" $?
    RIGHT=
    FAILS=1
    export FAILS
    gate "where rt ci fails at its end the status is 1" 1
    FAILS=
    UNPROVED=cubeboard
    export UNPROVED
    gate "where a program isn't proved the status is 1" 1
    is_handed_over "" && [ ! -e "$here/mark" ]
    count "and nothing is handed over" $?
    grep -q "isn't proved: the wrong bodies of top$" "$here/out" && [ "$(tried | grep -c top)" -eq 0 ]
    count "what stands on it isn't tried, and that is told" $?
    UNPROVED=
    KEPT=low
    export KEPT
    gate "what an earlier run has proved is proved" 0 "$all" "wrong_bodies: 5 passed, 0 failed"
    KEPT=suite
    gate "where an earlier run has proved the tests of suite the status is 0" 0 "$all" "wrong_bodies: 5 passed, 0 failed"
    is_handed_over "cubeboard cubejoin low suite " && [ -e "$here/mark" ] && [ ! -s "$here/behind" ]
    count "and the same is handed over at the end of rt ci" $?
    KEPT=
    echo > "$here/copy/crates/low/must-fail/02-two.edits"
    gate "a file that is no edit has to be none" 1 "$all" "wrong_bodies: 5 passed, 1 failed"
    rm "$here/copy/crates/low/must-fail/02-two.edits"
    ln -s nowhere "$here/copy/crates/low/lost"
    gate "where a trial breaks off the status is 1" 1
    rm "$here/copy/crates/low/lost"
}

# Wrong gates: the name and what `sed` makes of gate.py.
wrong() {
    copy_of_crates
    sed "$2" "$root/scripts/gate.py" > "$here/copy/scripts/gate.py"
    if cmp -s "$root/scripts/gate.py" "$here/copy/scripts/gate.py"; then
        count "the wrong gate \"$1\" can be made" 1
        return
    fi
    (is_wrong=1 && failed=0 && claims_of_gates > "$here/told" 2>&1)
    [ $? -ne 0 ]
    count "a gate with $1 is refused" $?
}

stand_in_for_gates
copy_of_crates
claims_of_gates
wrong "the edits left to rt ci" 's/"must-fail", //'
wrong "the status of rt ci passed over" 's/ if status or left/ if left/'
wrong "right bodies passed over" 's/ or not all(told)//'
wrong "no wrong bodies" 's/^        ready = .*/        ready = [] if self.left else []; self.left = []/'
wrong "a trial that breaks off passed over" 's/not isinstance(it.exception(), wrong_bodies.GivenUp)/not it.exception()/'
wrong "no wait for libraries" 's/ if self.below\[it.name\] <= self.proved\]/]/'
wrong "libraries by name alone" 's/^        return \[self.library(low).parent .*/        return []/'
wrong "crates left out" 's/ if status or left or not told/ if not told/; s/^    if left:/    if False:/'
wrong "what an earlier run has proved left out" 's/proved.| is kept:)/proved$)/'
wrong "nothing handed over" 's/^        self.mark.touch()/        pass/'
wrong "all handed over at the end" 's/^        if self.TRIED <= self.proved:/        if False:/'
wrong "libraries below the programs left out" 's/for it in build.below(program)}/for it in build.below(program)[-1:]}/'
wrong "the tests of suite left out" 's/ | {"suite"})/)/'
wrong "programs handed over before the tests of suite" 's/, "suite: its tests are"//'
wrong "tests that an earlier run has proved waited for" 's/^        made.hand_over()/        pass/'
wrong "no priority" 's/^    os.nice(build.LOWEST)/    pass/'
[ ! -s "$here/session" ] || wrong "no priority of the session" 's/^    build.stand_back("self")/    pass/'
[ ! -s "$here/session" ] || wrong "the priority of the session that rt ci runs in" 's/^        os.setsid()/        pass/'
echo "$name: $passed passed, $failed failed"
[ "$failed" -eq 0 ]
