#!/bin/sh
# Runs each script that tries the program, each that calls `build_program` of scripts/runs.sh, with false programs in the place of the true one, and each
# that calls `build_join` with the same in the place of `cubejoin`. Each script has to fail with each of them, by a claim that doesn't hold of it; that the
# same claims hold of the true programs is what the scripts say by themselves. A script ends at its first claim that fails. The false programs:
# - `silent` and `done` print nothing, and end with 3 and with 0;
# - `open` and `refuted` say of every bundle that nothing is refuted, or that all cubes are, in a report of the right form with the right
#   status and with the picture that goes with it;
# - `faulty` refuses every bundle by the line of a fault;
# - `first`, in the place of `cubejoin` alone, looks at no record but the first, and writes the report that stands in it.
# Then scripts/files.sh has to fail with each stand-in of scripts/stand_in.c: the true program, but for what it does with files. Without a C compiler they
# are skipped. And scripts/pipes.sh has to fail with each of these, the true program but for how it reads a proof by standard input:
# - `block` takes the proof's first 64 KB for all of it, and `seam` loses the byte at their end;
# - `own_lines` counts the line of a label from the proof's beginning;
# - `hasty` looks for no label line behind the step that refutes.
# The last line counts: a claim for each script and each false program, one for each stand-in, and one for each of these.
root=$(CDPATH= cd -- "$(dirname -- "$0")/.." && pwd) || exit 1
. "$root/scripts/runs.sh"
programs="silent done open refuted faulty"

printf '%s\n' '#!/bin/sh' 'exit 3' > "$here/silent"
printf '%s\n' '#!/bin/sh' 'exit 0' > "$here/done"
printf '%s\n' '#!/bin/sh' 'echo "cubeboard: F2 token, line 1" >&2' 'exit 3' > "$here/faulty"
printf '%s\n' '#!/bin/sh' '[ "$1" != --unbound ] || shift' 'sed 1d "$2"' > "$here/first"

# Makes one that says the same of every bundle: its name, what it says of each cube, the lines at its report's end, and its status.
always() {
    cat > "$here/$1" << PROGRAM
#!/bin/sh
picture=
record=
alone=
while [ \$# -gt 0 ]; do
    case \$1 in
        --workers | --cut | --proofs | --log | --formula) shift 2 ;;
        --proof) alone=1 && shift 2 ;;
        --record) record=\$2 && shift 2 ;;
        --map) picture=\$2 && shift 2 ;;
        --*) shift ;;
        *) break ;;
    esac
done
report=\$(if [ -n "\$alone" ]; then echo "a 0"; else cat -- "\${1:--}"; fi | awk '
    /^a / { cubes[++n] }
    END {
        print "t " n + 0 " 0 1152921504606846976"
        for (i = 1; i <= n; i++) print "a " i " $2"
        print "$3"
    }')
[ -z "\$record" ] || { echo "i \$(sha256sum < "\$1" | cut -d ' ' -f 1)"; echo "\$report"; } > "\$record"
[ -z "\$picture" ] || echo "\$report" | python3 "$root/scripts/draw.py" "\$1" /dev/stdin > "\$picture"
echo "\$report"
exit $4
PROGRAM
}
always open open 'o 0\nw 1152921504606846976\ns OPEN' 1
always refuted refuted 'w 0\ns REFUTED' 0
# Some of the scripts run the program as another user, who has to get there.
for program in $programs first; do chmod 755 "$here/$program"; done
chmod 711 "$here"

# The words of a script, of those that it may have: its name.
words_of() {
    case $1 in
        soak) echo "200 1" ;;
        cluster) echo loop ;;
    esac
}

# One script with one false program: the script's name, the program's, and the variable by which it stands in the true one's place. What is skipped
# isn't counted here.
try() {
    unset CI CUBEBOARD_SKIPPED
    log=$here/$1.$2
    env "$3=$here/$2" CUBEBOARD_STOP=1 TMPDIR="$here" timeout 300 sh "$root/scripts/$1.sh" $(words_of "$1") > "$log" 2>&1
    [ $? -eq 1 ] && grep -q "^$1: .*: this isn't so" "$log" && tail -n 1 "$log" | grep -q -x "$1: [0-9]* passed, 1 failed, [0-9]* skipped"
    echo $? > "$log.fails"
}

# One false program with each script that calls this: the program, its variable, what the scripts call, and what it stands for.
try_all() {
    scripts=$(grep -l -x "$3" "$root"/scripts/*.sh)
    for path in $scripts; do try "$(basename "$path" .sh)" "$1" "$2" & done
    wait
    for path in $scripts; do
        log=$here/$(basename "$path" .sh).$1
        fails=$(cat "$log.fails")
        count "$(basename "$path") fails with the false $4 $1" "$fails"
        [ "$fails" -eq 0 ] || tail -n 3 "$log"
    done
}

# One script with each of these, side by side: the script, their names, and what they are.
try_each() {
    for program in $2; do
        chmod 755 "$here/$program"
        try "$1" "$program" CUBEBOARD_PROGRAM &
    done
    wait
    for program in $2; do
        fails=$(cat "$here/$1.$program.fails")
        count "$1.sh fails with the $3 $program" "$fails"
        [ "$fails" -eq 0 ] || tail -n 3 "$here/$1.$program"
    done
}

# The stand-ins: their names.
stand_ins() {
    for program in $1; do
        printf '%s\n' '#!/bin/sh' "STAND_IN=$program LD_PRELOAD='$here/stand_in.so' exec '$built' \"\$@\"" > "$here/$program"
    done
    try_each files "$1" stand-in
}

# Makes one that reads a proof by standard input in its own way: its name, and what it does with its words where `--proof -` is among them.
reader() {
    printf '%s\n' '#!/bin/sh' "built='$built' here='$here'" 'case " $* " in *" --proof - "*) ;; *) exec "$built" "$@" ;; esac' "$2" > "$here/$1"
}

for program in $programs; do try_all "$program" CUBEBOARD_PROGRAM build_program program; done
for program in $programs first; do try_all "$program" CUBEJOIN_PROGRAM build_join cubejoin; done
if preload stand_in "the stand-ins"; then
    # (indented, so that this script isn't one of those above)
    build_program
    stand_ins "twice late lengths empties apart"
fi
readers() {
    build_program
    reader block 'head -c 65536 | "$built" "$@"'
    reader seam '{ head -c 65535 && head -c 1 > /dev/null && cat; } | "$built" "$@"'
    reader own_lines '"$built" "$@" 2> "$here/own_lines.err"
        status=$?
        above=$(($(tr -d -c "\n" < formula.cnf | wc -c) + 3))
        awk -v above="$above" "/, line [0-9]*$/ { \$NF -= above } { print }" "$here/own_lines.err" >&2
        exit "$status"'
    reader hasty 'cat > "$here/hasty.in"
        sed "/^ *l/,\$d" "$here/hasty.in" | "$built" "$@" > "$here/hasty.out" 2> /dev/null && exec cat "$here/hasty.out"
        "$built" "$@" < "$here/hasty.in"'
    try_each pipes "block seam own_lines hasty" reader
}
readers
finish
