# What scripts/launcher.sh claims of a launcher. It has set `root` and `here`; `$here/copy` is the copy whose launchers are tried, `program` the one that
# is called, and `is_wrong` is set where it is a wrong one, for which the first claim that fails is the end.
is_wrong=
program=cubeboard

count() {
    if [ "$2" -eq 0 ]; then
        passed=$((passed + 1))
    else
        failed=$((failed + 1))
        echo "$name: $1: this isn't so"
        [ -z "$is_wrong" ] || exit 1
    fi
    return "$2"
}

# A copy of this folder without what was built.
copy_folder() {
    rm -rf "$here/copy"
    mkdir "$here/copy"
    (cd "$root" && tar -c --exclude=out --exclude=.git --exclude=bench --exclude=examples .) | tar -x -C "$here/copy"
}

# The stand-in: `rt` says which kit it is and where it lies; `rattle` notes the crate that it is to prove, and refuses one whose libraries aren't there.
stand_in() {
    mkdir -p "$here/bin" "$here/kit/bin"
    sed -n 's/^NEEDED = "\(.*\)"/\1/p' "$root/scripts/build.py" > "$here/needed"
    echo "a-kit-of-some-name $(cat "$here/needed")" > "$here/version"
    cat > "$here/bin/rt" << 'RT'
#!/bin/sh
case $1 in
    version) cat "$HERE/version" ;;
    doc) echo "$HERE/kit/START-HERE.md" ;;
    *) exit 1 ;;
esac
RT
    cat > "$here/kit/bin/rattle" << 'RATTLE'
#!/bin/sh
is_turn= is_program=
while [ $# -gt 0 ]; do
    case $1 in
        --crate-name) crate=$2 ;;
        --extern) lower="$lower ${2#*=}" ;;
        -o) made=$2 ;;
        --incremental) is_turn=1 ;;
        src/main.rt) is_program=1 ;;
    esac
    shift
done
echo "$crate" >> "$HERE/notes"
if [ "$NICE" ]; then sleep 0.5; echo "$crate $(nice) $(cat /proc/self/autogroup 2> /dev/null)" >> "$NICE"; fi
if [ "$crate" = "$SLOW" ]; then sleep 2; fi
if [ "$crate" = "$REFUSED" ]; then echo "a goal of $crate stays open"; exit 1; fi
for it in $lower; do
    case $it in */kit/*) ;; *) [ -d "$it" ] || { echo "$it isn't there"; exit 1; } ;; esac
done
echo "logic=proved functions=1 sum=0"
if [ "$is_program" ]; then echo > "$made"; exit; fi
mkdir -p "$made"
if [ "$is_turn" ]; then
    # What a library states: what it says of itself, its contracts, and all files of specs/ and proofs/. A sum is another one each time.
    rm -rf "$made"
    mkdir -p "$made/interface" "$made/lang/antt"
    { grep -rh crosses src; echo "sum $(date +%N)"; } > "$made/format"
    grep -rh ensures src > "$made/interface/stated"
    for part in specs proofs; do [ ! -d "$part" ] || cp -rl "$part" "$made/lang/antt/"; done
    date +%N > "$made/lang/antt/made.json"
fi
RATTLE
    cat > "$here/kit/bin/rattle-link" << 'LINK'
#!/bin/sh
while [ "$1" != -o ]; do shift; done
printf '#!/bin/sh\necho "${0##*/} $*"\necho "$GLIBC_TUNABLES" > "$HERE/pages"\nexit 7\n' > "$2"
chmod +x "$2"
LINK
    chmod +x "$here/bin/rt" "$here/kit/bin/rattle" "$here/kit/bin/rattle-link"
    PATH=$here/bin:$PATH
    HERE=$here
    export HERE PATH
}

# What a crate of crates.txt stands on, and itself, or what stands on it: `below` or `above`, and the crate. Sorted, a line each.
reach() {
    sed 's/#.*//; /^ *$/d' "$here/copy/crates.txt" | awk -v way="$1" -v start="$2" '
        { split($0, halves, ":"); split(halves[1], head, " "); name = head[1]; n = split(halves[2], words, " ")
          for (i = 1; i <= n; i++) if (way == "below") edge[name, words[i]] = 1; else edge[words[i], name] = 1
          crates[name] = 1 }
        END { found[start] = 1
              do { more = 0
                   for (a in found) for (b in crates) if (!(b in found) && (a, b) in edge) { found[b] = 1; more = 1 } } while (more)
              for (it in found) if (it in crates) print it }' | sort
}

# Those of its lines that the program stands on: a list, sorted.
of_program() {
    reach below "$program" > "$here/below"
    comm -12 "$here/below" -
}

# Calls the launcher: the claim, the status that is wanted, the crates that it has to prove (sorted), and the words.
call() {
    claim=$1
    wanted=$2
    crates=$3
    shift 3
    : > "$here/notes"
    "$here/copy/$program" "$@" < /dev/null > "$here/out" 2> "$here/err"
    [ $? -eq "$wanted" ] && [ "$(sort "$here/notes")" = "$crates" ]
    count "$claim" $?
}

# Whether the program that was run last got these words on the memory that it asks for.
pages() {
    [ "$(cat "$here/pages")" = "$1" ]
}

# Whether the last call has built and run the program that was called, said so under that name alone, and run it on these words.
has_run() {
    [ "$(cat "$here/out")" = "$program $*" ] && [ -s "$here/err" ] && ! grep -q -v "^$program: " "$here/err"
}

# Two programs over the same libraries: in the copy the second one has a library that the first doesn't stand on.
claims_of_two_programs() {
    cmp -s "$here/copy/cubeboard" "$here/copy/cubejoin" && [ -x "$here/copy/cubejoin" ]
    count "the launchers of both programs are the same bytes" $?
    mkdir -p "$here/copy/crates/cubejoin/src" "$here/copy/crates/of_join/src"
    echo "//" >> "$here/copy/crates/cubejoin/src/main.rt"
    echo "//" > "$here/copy/crates/of_join/src/lib.rt"
    sed -i '/^cubejoin/d' "$here/copy/crates.txt"
    { echo "of_join: mark_board"; echo "cubejoin: cube_command of_join"; } >> "$here/copy/crates.txt"
    first=$(reach below cubeboard)
    program=cubejoin
    second=$(reach below cubejoin)
    program=cubeboard
    call "the first program is built" 7 "$first" "a b"
    has_run "a b"
    count "it is the first one that runs, and its name that is told" $?
    program=cubejoin
    call "the second program proves only what the first doesn't stand on" 7 "cubejoin
of_join" c "a  b"
    has_run "c a  b"
    count "it is the second one that runs, and its name that is told" $?
    call "the second program again" 7 ""
    program=cubeboard
    call "the first program is there still" 7 ""
    [ "$(cat "$here/out")" = "cubeboard " ] && [ ! -s "$here/err" ]
    count "and runs" $?
    echo "// more" >> "$here/copy/crates/of_join/src/lib.rt"
    call "what only the second stands on leaves the first as it is" 7 ""
    program=cubejoin
    call "and is proved for the second" 7 "cubejoin
of_join"
    echo "// more" >> "$here/copy/crates/mark_board/src/lib.rt"
    claims_of_two_at_once
    claims_of_other_builds
    rm -rf "$here"/copy/crates/*/out
    call "the second program alone proves all that it stands on" 7 "$second"
    program=cubeboard
    call "and the first one then itself alone" 7 "$(echo "$first" | grep -v -x -F "$second")"
    rm -rf "$here"/copy/crates/*/out
}

# A library below both changes and changes back, and the first program is built each time: the library is then another build of the same sources, over which
# what the second stands on alone isn't proved.
claims_of_other_builds() {
    cp "$here/copy/crates/mark_board/src/lib.rt" "$here/before"
    program=cubeboard
    for turn in changed back; do
        [ "$turn" = back ] || echo "// other" >> "$here/copy/crates/mark_board/src/lib.rt"
        [ "$turn" = changed ] || cp "$here/before" "$here/copy/crates/mark_board/src/lib.rt"
        call "a library below both, $turn, for the first program" 7 "$(reach above mark_board | of_program)"
    done
    program=cubejoin
    call "the second program is there as it was built" 7 ""
    echo "// more" >> "$here/copy/crates/cubejoin/src/main.rt"
    call "where it is built anew, so is what stands on the other build" 7 "cubejoin
of_join"
}

# Both programs are called at once, and a library below both has changed: each crate above it is proved once. Wrong ones may wait for ever.
claims_of_two_at_once() {
    reach above mark_board > "$here/above"
    { reach below cubejoin && reach below cubeboard; } | sort -u | comm -12 "$here/above" - > "$here/both"
    : > "$here/notes"
    SLOW=mark_board
    timeout 60 "$here/copy/cubeboard" > "$here/out" 2> /dev/null < /dev/null &
    timeout 60 "$here/copy/cubejoin" > "$here/out.join" 2> /dev/null < /dev/null
    status=$?
    SLOW=
    wait $!
    [ $? -eq 7 ] && [ "$status" -eq 7 ] && [ "$(cat "$here/out" "$here/out.join" | tr '\n' ,)" = "cubeboard ,cubejoin ," ] &&
        sort "$here/notes" | cmp -s - "$here/both"
    count "both programs called at once prove each crate once, and both run" $?
}

# Which crates are proved, when and how often.
claims_of_builds() {
    all=$(reach below cubeboard)
    many=$(printf '%s\n' $all | wc -l)
    call "the first call proves each crate that the program stands on, and no other" 7 "$all" --workers 2 "a b"
    [ "$(cat "$here/out")" = "cubeboard --workers 2 a b" ]
    count "the program gets the words, and standard output nothing else" $?
    [ "$(head -n 1 "$here/err" | cut -d ' ' -f 1-6)" = "cubeboard: proving $many crates and building" ] &&
        [ "$(grep -c "^cubeboard: proved [0-9]* of $many: [a-z_]* (1 functions), 0:[0-9][0-9] min\$" "$here/err")" -eq "$many" ] &&
        [ "$(wc -l < "$here/err")" -eq $((many + 1)) ]
    count "standard error gets a line when it begins and one for each crate" $?
    call "the second call proves nothing" 7 ""
    [ ! -s "$here/err" ]
    count "it says nothing" $?
    pages glibc.malloc.hugetlb=1
    count "the program is to ask for huge pages" $?
    (GLIBC_TUNABLES=glibc.malloc.perturb=1 && export GLIBC_TUNABLES && "$here/copy/$program" < /dev/null > /dev/null 2>&1)
    pages glibc.malloc.perturb=1
    count "unless the caller says something else of memory" $?
    for crate in $all; do
        file=$(find "$here/copy/crates/$crate/proofs" "$here/copy/crates/$crate/src" -type f 2> /dev/null | sort | head -n 1)
        echo "// more" >> "$file"
        call "a changed file of $crate" 7 "$(reach above "$crate" | of_program)"
    done
    echo "// more" >> "$here/copy/crates/suite/src/lib.rt"
    call "a changed file of the tests" 7 ""
    echo "// more" >> "$here/copy/crates/own_threads/src/main.rt"
    call "a changed file of another program" 7 ""
}

# What the longest way doesn't wait for is proved with the lowest priority.
claims_of_priorities() {
    rm -rf "$here/copy/crates/cubeboard/out"
    : > "$here/nice"
    NICE=$here/nice "$here/copy/cubeboard" > /dev/null 2>&1 < /dev/null
    for crate in cnf_text hint_check check_crew cubeboard; do grep -q "^$crate $(nice) " "$here/nice" || echo "$crate"; done > "$here/others"
    grep -q '^byte_flow 19 ' "$here/nice" && grep -q '^lrat_binary 19 ' "$here/nice" && [ ! -s "$here/others" ]
    count "crates beside the longest way have the lowest priority, and those of it have not" $?
    # (where the kernel doesn't share processors out to sessions first, none has a priority)
    if [ -e /proc/self/autogroup ]; then
        grep -q '^byte_flow .* nice 19$' "$here/nice" && grep -q '^lrat_binary .* nice 19$' "$here/nice" && ! grep -q '^cnf_text .* nice 19$' "$here/nice"
        count "so have their sessions" $?
    fi
}

# On a terminal one line is written over.
claims_of_terminals() {
    echo "// on a terminal" >> "$here/copy/crates/cube_report/src/lib.rt"
    SLOW=bundle_files
    python3 -c 'import pty, sys; pty.spawn(sys.argv[1:])' "$here/copy/cubeboard" < /dev/null > "$here/out" 2> "$here/err"
    SLOW=
    many=$(reach below cubeboard | tr ' ' '\n' | grep -c .)
    # cube_command and the program come behind it; run_watch is proved beside it.
    tr '\r' '\n' < "$here/out" | grep -q "proving $((many - 2)) of $many: bundle_files, 0:[0-9][0-9] min" && [ "$(grep -c proved "$here/out")" -le 1 ]
    count "on a terminal one line is written over" $?
}

# Whatever order, attributes and further crates crates.txt has.
claims_of_the_list() {
    rm -rf "$here/copy/crates/cubeboard/out"
    mkdir -p "$here/copy/crates/letters/src" "$here/copy/crates/extra/src"
    echo "//" > "$here/copy/crates/letters/src/lib.rt"
    echo "//" > "$here/copy/crates/extra/src/lib.rt"
    sed -i 's/^cnf_text:/cnf_text may_wait=0 : letters/; s/^split_tree:/split_tree: # the tree\n# no crate: /' "$here/copy/crates.txt"
    sed -i 's/^# no crate: .*//; s/^split_tree: # the tree/split_tree: cnf_text thiserror # the tree/' "$here/copy/crates.txt"
    { echo "extra: cube_command"; echo "letters:"; } >> "$here/copy/crates.txt"
    sort -r "$here/copy/crates.txt" > "$here/list"
    cp "$here/list" "$here/copy/crates.txt"
    call "lines in another order, with attributes, comments, a crate below and one above" 7 "$(reach below cubeboard)"
}

# Where it can't be built.
claims_of_failures() {
    echo "// once more" >> "$here/copy/crates/hint_check/src/lib.rt"
    REFUSED=hint_check
    export REFUSED
    call "a crate that can't be proved ends the build" 70 "hint_check"
    grep -q "a goal of hint_check stays open" "$here/err" && grep -q "the crate hint_check could not be built" "$here/err" &&
        grep -q "crates/cubeboard/out/hint_check.log" "$here/err"
    count "it says what failed: the last lines, the crate and the log's path" $?
    REFUSED=
    call "what was proved before is kept" 7 "$(reach above hint_check | of_program)"
    REFUSED=cubeboard
    echo "// once more" >> "$here/copy/crates/cubeboard/src/main.rt"
    call "a program that can't be proved" 70 "cubeboard"
    [ ! -e "$here/copy/crates/cubeboard/out/cubeboard" ]
    count "no program is left that was built from other sources" $?
    REFUSED=
    echo "another kit" > "$here/version"
    call "another kit" 70 ""
    [ "$(wc -l < "$here/err")" -eq 1 ] && grep -q "$(cat "$here/needed")" "$here/err" && grep -q "another kit" "$here/err"
    count "one line says which kit is needed, and which one is there" $?
    mv "$here/bin/rt" "$here/rt"
    (PATH=$(without_rt) && call "no kit" 70 "") && grep -q "$(cat "$here/needed")" "$here/err" && [ "$(wc -l < "$here/err")" -eq 1 ]
    count "one line says which kit is needed where none is" $?
    mv "$here/rt" "$here/bin/rt"
    sed -i 's/^NEEDED = .*/NEEDED = "a later logic"/' "$here/copy/scripts/build.py"
    echo "a-kit-of-some-name a later logic" > "$here/version"
    call "with another kit all is proved anew" 7 "$(reach below cubeboard)"
}

# The path without the folders that have an `rt`.
without_rt() {
    echo "$PATH" | tr ':' '\n' | while read -r folder; do [ -x "$folder/rt" ] || printf '%s:' "$folder"; done
}

# Two calls at once, and one that is interrupted.
claims_of_calls_at_once() {
    echo "// at once" >> "$here/copy/crates/cube_report/src/lib.rt"
    : > "$here/notes"
    SLOW=cube_report
    export SLOW
    "$here/copy/cubeboard" > /dev/null 2>&1 < /dev/null &
    first=$!
    "$here/copy/cubeboard" > /dev/null 2>&1 < /dev/null
    second=$?
    SLOW=
    wait "$first"
    [ $? -eq 7 ] && [ "$second" -eq 7 ] && [ "$(sort "$here/notes")" = "$(reach above cube_report | of_program)" ]
    count "two calls at once build once, and both run the program" $?
    echo "// interrupted" >> "$here/copy/crates/cube_report/src/lib.rt"
    : > "$here/notes"
    SLOW=cube_command
    call_until_slow
    kill -TERM "$first"
    wait "$first"
    [ $? -eq 130 ] && grep -q "interrupted" "$here/err"
    count "an interrupted call says so, with status 130" $?
    SLOW=
    call "what it has proved is kept" 7 "$(reach above cube_command | of_program)"
    grep -q "proved already: going on from there" "$here/err"
    count "the next call says that it goes on" $?
    echo "// slow" >> "$here/copy/crates/cube_command/src/lib.rt"
    : > "$here/notes"
    SLOW=cube_command
    call_until_slow
    echo "// while it is proved" >> "$here/copy/crates/cube_command/src/lib.rt"
    wait "$first"
    [ $? -eq 70 ]
    count "what changes while it is proved isn't taken as proved" $?
    SLOW=
    sed -i '$d' "$here/copy/crates/cube_command/src/lib.rt"
    call "and it is proved anew, also as it was" 7 "$(reach above cube_command | of_program)"
}

# Starts the launcher, and goes on once the crate that is slow is being proved.
call_until_slow() {
    "$here/copy/cubeboard" > /dev/null 2> "$here/err" < /dev/null &
    first=$!
    tries=0
    until grep -q "$SLOW" "$here/notes" || [ "$tries" -gt 100 ]; do sleep 0.1; tries=$((tries + 1)); done
}

# Notes each call of python3 in a file of its own, and makes it.
note_python() {
    rm -f "$here/bin/python3"
    hash -r
    python=$(command -v python3)
    printf '#!/bin/sh\necho >> "%s"\nexec "%s" "$@"\n' "$here/pythons" "$python" > "$here/bin/python3"
    chmod +x "$here/bin/python3"
    : > "$here/pythons"
}

# Waits until no file is young, and calls once more, which sums the sources and finds the program built from them.
settle() {
    sleep 2.2
    call "$1: the program is there" 7 ""
    [ -f "$here/copy/crates/$program/out/seen" ]
    count "$1: what it has seen is noted" $?
    : > "$here/pythons"
}

# What a launcher sees that looks at the files and doesn't sum them: nothing has changed, or something has, also where size and time are as they were.
claims_of_looks() {
    note_python
    call "the program is built to be looked at" 7 "$(reach below cubeboard)"
    call "again at once" 7 ""
    [ ! -e "$here/copy/crates/cubeboard/out/seen" ]
    count "files that are young aren't noted" $?
    settle "when they are older"
    call "with nothing changed" 7 "" --workers 2 "a  b"
    [ ! -s "$here/pythons" ] && [ "$(cat "$here/out")" = "cubeboard --workers 2 a  b" ] && [ ! -s "$here/err" ]
    count "the program runs at once, on its words, without python" $?
    pages glibc.malloc.hugetlb=1
    count "it is to ask for huge pages then, too" $?
    (GLIBC_TUNABLES=glibc.malloc.perturb=1 && export GLIBC_TUNABLES && "$here/copy/$program" < /dev/null > /dev/null 2>&1)
    pages glibc.malloc.perturb=1
    count "unless the caller says something else" $?
    claims_of_changes
    rm -rf "$here"/copy/crates/*/out "$here/bin/python3"
}

# Changes of one file, of which each has to be seen.
claims_of_changes() {
    file=$here/copy/crates/mark_board/src/lib.rt
    cp -p "$file" "$here/kept"
    printf X | dd of="$file" bs=1 seek=3 conv=notrunc 2> /dev/null
    touch -r "$here/kept" "$file"
    [ "$(stat -c '%s %Y' "$file")" = "$(stat -c '%s %Y' "$here/kept")" ]
    count "the file has its size and its time" $?
    call "another byte, with the file's old time" 7 "$(reach above mark_board | of_program)"
    cp -p "$here/kept" "$here/copy/crates/mark_board/src/kept"
    mv "$here/copy/crates/mark_board/src/kept" "$file"
    call "an older file in its place" 7 "$(reach above mark_board | of_program)"
    settle "with the older file"
    echo "//" > "$here/copy/crates/mark_board/src/more.rt"
    call "a file more" 7 "$(reach above mark_board | of_program)"
    settle "with a file more"
    rm "$here/copy/crates/mark_board/src/more.rt"
    call "a file less" 7 "$(reach above mark_board | of_program)"
    settle "with a file less"
    printf '#!/bin/sh\nexit 7\n' > "$here/copy/crates/cubeboard/out/other"
    chmod +x "$here/copy/crates/cubeboard/out/other"
    mv "$here/copy/crates/cubeboard/out/other" "$here/copy/crates/cubeboard/out/cubeboard"
    call "another program in its place" 7 ""
    [ -s "$here/pythons" ]
    count "the sources are summed then" $?
    claims_of_a_late_change
}

# A file changes when its sum is made and others' aren't: python waits before it opens a file of mark_board, as long as there is a file `block`.
claims_of_a_late_change() {
    mkdir -p "$here/site"
    cat > "$here/site/sitecustomize.py" << 'PYTHON'
import builtins
import os
import pathlib
import time

at, plain = os.environ.get("HERE", ""), builtins.open


def waiting(file, *words, **more):
    if str(file).endswith("mark_board/src/lib.rt") and os.path.exists(f"{at}/block"):
        pathlib.Path(f"{at}/waits").touch()
        while os.path.exists(f"{at}/block"):
            time.sleep(0.05)
    return plain(file, *words, **more)


builtins.open = waiting
PYTHON
    sleep 2.2
    rm -f "$here/copy/crates/cubeboard/out/seen" "$here/waits"
    : > "$here/block"
    PYTHONPATH=$here/site "$here/copy/cubeboard" > /dev/null 2>&1 < /dev/null &
    tries=0
    until [ -e "$here/waits" ] || [ "$tries" -gt 100 ]; do sleep 0.1; tries=$((tries + 1)); done
    echo "// late" >> "$here/copy/crates/cnf_text/src/lib.rt"
    sleep 2.3
    rm "$here/block"
    wait $!
    call "a change behind its sum is seen by the next call" 7 "$(reach above cnf_text | of_program)"
}

# What the stand-in begins with, and which program is called.
begin() {
    REFUSED=
    SLOW=
    export REFUSED SLOW
    program=cubeboard
    sed -n 's/^NEEDED = "\(.*\)"/\1/p' "$root/scripts/build.py" > "$here/needed"
    echo "a-kit-of-some-name $(cat "$here/needed")" > "$here/version"
}

claims() {
    claims_of_builds
    claims_of_priorities
    claims_of_terminals
    claims_of_the_list
    claims_of_calls_at_once
    claims_of_failures
}

# A copy of this folder with the libraries and programs that were built for the launchers.
copy_built() {
    copy_folder
    for it in cubeboard cubejoin; do cp -r "$root/crates/$it/out" "$here/copy/crates/$it/out"; done
}

# The launchers of the copy: without the first program, that of the first has to prove it alone, and to run an example of README; without the second program
# and the last library below it, that of the second has to prove both, and to join that example's report with itself.
build_here() {
    copy_built
    out=$here/copy/crates/cubeboard/out
    example=$root/examples/pigeons-7-in-6
    rm -f "$out/cubeboard" "$out/built"
    "$here/copy/cubeboard" < "$example.icnf" > "$here/out" 2> "$here/err"
    [ $? -eq 0 ] && cmp -s "$here/out" "$example.report"
    is_well=$?
    [ "$is_well" -eq 0 ] || cat "$here/err"
    count "the launcher builds the program, and an example of README runs" "$is_well"
    [ "$(grep -c "^cubeboard: proved " "$here/err")" -eq 1 ] && grep -q "^cubeboard: proved .* of .*: cubeboard" "$here/err"
    count "it has proved its program alone" $?
    rm -rf "$here/copy/crates/cubejoin/out/cubejoin" "$out/rlib/join_command.rlib" "$out/rlib/join_command.sum"
    "$here/copy/cubejoin" --unbound "$example.icnf" "$example.report" "$example.report" < /dev/null > "$here/out" 2> "$here/err"
    [ $? -eq 0 ] && cmp -s "$here/out" "$example.report"
    is_well=$?
    [ "$is_well" -eq 0 ] || cat "$here/err"
    count "the second launcher builds its program, and the example's report joins with itself" "$is_well"
    [ "$(grep -c "^cubejoin: proved " "$here/err")" -eq 2 ] && grep -q "^cubejoin: proved .* of .*: join_command" "$here/err"
    count "it has proved the library and its program, and nothing else" $?
}
