#!/bin/sh
# Tries the launchers in copies of this folder under a stand-in for the kit that proves nothing and notes on which crate it is called: which crates
# a launcher builds, when it builds anew, what it does where it can't, and what the two programs share. Then it tries wrong launchers, each of which
# a claim has to refuse. It takes some minutes, and no proof. With the word `build`, the launchers of a copy with what is built here build the programs
# themselves, over the libraries that are proved here but the last below the second; an example of README runs through the first, and the second joins
# its report: some minutes. All this goes on side by side. The last line counts.
root=$(CDPATH= cd -- "$(dirname -- "$0")/.." && pwd) || exit 1
above=$(mktemp -d) || exit 1
trap 'rm -rf "$above"' EXIT
name=launcher
. "$root/scripts/launcher_claims.sh"

# Goes through a part in a folder of its own, beside what else goes on: its name, and the command. What it says and counts is kept.
beside() {
    mkdir "$above/$1"
    (
        here=$above/$1
        passed=0
        failed=0
        shift
        "$@" > "$here/said" 2>&1
        echo "$passed $failed" > "$here/counted"
    ) &
}

right() {
    copy_folder
    stand_in
    begin
    claims
    copy_folder
    begin
    claims_of_two_programs
    copy_folder
    begin
    claims_of_looks
}

# Wrong launchers: the name, what `sed` makes of build.py, which claims have to refuse it where those of one program needn't, and what else than
# build.py is made so. A launcher that no claim refuses is a failed claim. Each turn has those of its number.
wrong() {
    number=$(((number + 1) % turns))
    [ "$number" -eq "$turn" ] || return 0
    copy_folder
    for file in ${4:-scripts/build.py}; do
        sed "$2" "$root/$file" > "$here/copy/$file"
        if cmp -s "$root/$file" "$here/copy/$file"; then
            count "the wrong launcher \"$1\" can be made" 1
            return
        fi
    done
    (is_wrong=1 && failed=0 && begin && ${3:-claims} > "$here/told" 2>&1)
    [ $? -ne 0 ]
    count "a launcher with $1 is refused" $?
}

turns=4
wrong_ones() {
    turn=$1
    number=0
    stand_in
    wrong "a program among the libraries" 's/^    visit(name, ())$/    visit("own_threads", ()); visit(name, ())/'
    wrong "every crate of crates.txt among the libraries" 's/^    visit(name, ())$/    [visit(it, ()) for it in lines]/'
    wrong "too few libraries" 's/it in lines\[name\] if it in lines\]/it in lines[name][-1:] if it in lines]/'
    wrong "libraries in the order of crates.txt" 's/if all(low.name in self.proved for low in it.lower)//'
    wrong "a stale program" 's/ and file.read_text().strip() == wanted and / and /'
    wrong "a stale library" 's/return file.is_file() and file.read_text().strip() == wanted and/return file.is_file() and (not crate.is_program or file.read_text().strip() == wanted) and/'
    wrong "a hash that leaves out a crate" 's/^    for crate in crates:$/    for crate in crates: \n        if crate.name == "split_tree": sums[crate.name] = ""; continue/'
    wrong "a hash that leaves out the crates below" 's/crate.own, lower = crate.sum(), .*/crate.own, lower = crate.sum(), []/'
    wrong "a hash that leaves out proofs" 's/("src", "specs", "proofs")\]$/("src", "specs")]/'
    wrong "a hash that leaves out the kit" 's/made = f"{NEEDED}/made = f"/'
    wrong "a program that is left where a crate can't be built" 's/self.made(crate).unlink(missing_ok=True)/pass/'
    wrong "status 0 where a crate can't be built" 's/^FAILED, INTERRUPTED = 70, 130/FAILED, INTERRUPTED = 0, 130/'
    wrong "no word on what failed" 's/^            raise Failure(f"the crate .*/            raise Failure("it could not be built")/'
    wrong "another kit" 's/if not self.version.endswith(f" {NEEDED}"):/if False:/'
    wrong "a kit of another name and the same logic refused" 's/if not self.version.endswith(f" {NEEDED}"):/if self.version != NEEDED:/'
    wrong "two builds at once" 's/fcntl.flock(lock, fcntl.LOCK_EX.*)/pass/'
    wrong "nothing kept after an interrupt" 's/^    signal.signal(signal.SIGTERM, signal.default_int_handler)/    shutil.rmtree(ROOT \/ "crates\/cubeboard\/out\/rlib", ignore_errors=True)/'
    wrong "silence" 's/^    print(f"{Speaker.name}: {text}", .*/    pass/'
    wrong "what changes while it is proved taken as proved" 's/ and crate.sum() == crate.own//'
    wrong "small pages" 's/^        os.environ.setdefault("GLIBC_TUNABLES".*/        pass/'
    wrong "words that are lost" 's/, \*words\[2:\]\])/])/'
    nice=claims_of_priorities
    wrong "no priorities" 's/^        words = \["nice", .* if crate.stands_back else words/        pass/' "$nice"
    wrong "the lowest priority for all" 's/^                crate.stands_back = .*/                crate.stands_back = True/' "$nice"
    [ ! -e /proc/self/autogroup ] || wrong "no priorities of sessions" 's/^            stand_back(ran.pid)/            pass/' "$nice"
    looks=claims_of_looks
    wrong "files that are as they were where they have their size and number" 's/ %C@ / 0 /' "$looks" scripts/seen.sh
    wrong "files that are as they were where they have their time" 's/%C@/%T@/' "$looks" scripts/seen.sh
    wrong "files that aren't looked for" 's/ "$out\/built" crates / "$out\/built" crates.txt /' "$looks" scripts/seen.sh
    wrong "a program that isn't looked at" 's/ "$out\/$1" "$out\/built"/ "$out\/built"/' "$looks" scripts/seen.sh
    wrong "what is noted looked at behind the sums" 's/^    elif build(crates, kept, sums) and seen:/    elif build(crates, kept, sums) and seen and (seen := Seen(crates[-1])):/' "$looks"
    wrong "young files noted" 's/^    YOUNGEST = 2/    YOUNGEST = -10/' "$looks"
    wrong "nothing noted" 's/^        seen.note()/        pass/' "$looks"
    wrong "small pages without python" 's/^    export GLIBC_TUNABLES=.*/    :/' "$looks" "cubeboard cubejoin"
    wrong "words that are lost without python" 's/^    exec "$out\/$name" "$@"/    exec "$out\/$name" $@/' "$looks" "cubeboard cubejoin"
    two=claims_of_two_programs
    wrong "libraries of its own for each program" 's/self.libraries = SHARED /self.libraries = self.out /' "$two"
    wrong "what was proved over another build taken as proved" 's/^        for name in above(crate.name):/        for name in ():/' "$two"
    wrong "one note of what is built for all programs" 's/return self.out \/ "built"/return SHARED \/ "built"/' "$two"
    wrong "builds of two programs at once" 's/with open(SHARED \/ "lock"/with open(kept.out \/ "lock"/' "$two"
    wrong "the first program in the place of the second" 's/^    kept, sums = Kept(crates\[-1\])/    crates = below("cubeboard")\n&/' "$two"
    wrong "messages of another program's name" 's/^    Speaker.name = .*/    Speaker.name = "cubeboard"/' "$two"
    wrong "a text that runs the first program under both names" 's/--run "$name"/--run cubeboard/' "$two" "cubeboard cubejoin"
    wrong "another text for the second program" 's/^# Runs .*/# Runs/' "$two" cubejoin
}

beside right right
for it in 0 1 2 3; do beside "wrong_$it" wrong_ones "$it"; done
[ "$1" != build ] || beside build build_here
wait
passed=0
failed=0
for part in "$above"/*/; do
    cat "$part/said"
    read -r more fewer < "$part/counted" || fewer=1
    passed=$((passed + ${more:-0}))
    failed=$((failed + fewer))
done
echo "$name: $passed passed, $failed failed"
[ "$failed" -eq 0 ]
