# What the scripts share that run the built program. A script that reads this file has set `root`, the repository's folder. Then `$here` is a
# folder that goes at the script's end, `$here/run` the one that the program runs in, and `$here/out`, `$here/err` and `$here/status` are what
# the last run left.
# A script's last line is `NAME: P passed, F failed, S skipped`, and its status is 0 where no claim failed. Whoever calls a script may set:
# - CUBEBOARD_PROGRAM, the path of a program that is tried in the place of the built one, and CUBEJOIN_PROGRAM, that of one in the place of the built
#   `cubejoin`; the launcher isn't called then (scripts/false_programs.sh);
# - CUBEBOARD_STOP, so that the script ends at its first claim that fails;
# - CUBEBOARD_SKIPPED, the path of a file that gets a line for each thing that is skipped (./check counts them);
# - CI, where it isn't empty: what a Debian package would make run isn't skipped, but fails.
script=$(basename -- "$0" .sh)
here=$(mktemp -d) || exit 1
trap 'rm -rf "$here"' EXIT
passed=0
failed=0
skipped=0
as_other=
: > "$here/none"
mkdir "$here/run"

# Counts one claim: its name, and whether it holds.
count() {
    if [ "$2" -eq 0 ]; then
        passed=$((passed + 1))
    else
        fail "$1: this isn't so$(last_run)"
    fi
}

# Counts a claim that fails: what is said of it.
fail() {
    failed=$((failed + 1))
    echo "$script: $1"
    [ -z "${CUBEBOARD_STOP:-}" ] || finish
}

# Counts what isn't tried: what it is, why, and, where one would make it run, the Debian package, whose lack fails where CI is set.
skip() {
    if [ -n "${3:-}" ] && [ -n "${CI:-}" ]; then
        fail "$1: not tried, since $2, which isn't skipped where CI is set: install the package $3"
    else
        skipped=$((skipped + 1))
        echo "$script: $1: skipped, since $2"
        [ -z "${CUBEBOARD_SKIPPED:-}" ] || echo "$script: $1" >> "$CUBEBOARD_SKIPPED"
    fi
}

# What the last run left, if there was one, in short.
last_run() {
    [ ! -f "$here/status" ] || echo ": status $(cat "$here/status"), $(tail -n 1 "$here/out" | head -c 200), $(head -n 1 "$here/err" | head -c 200)"
}

# The last line, which counts; the status is 0 where all claims hold.
finish() {
    echo "$script: $passed passed, $failed failed, $skipped skipped"
    [ "$failed" -eq 0 ]
    exit $?
}

# Puts a page's blocks of indented lines into $here/page, each in a file under the name of its part, a full stop, and which one of that part it is: the page. A
# part's name is its number, if its heading has one, or the heading in small letters.
cut_page() {
    mkdir "$here/page"
    awk -v page="$here/page" '
        /^## / { part = $2 ~ /^[0-9]+\.$/ ? $2 + 0 : tolower(substr($0, 4)); blocks = 0 }
        /^    / && part != "" { if (!inside) blocks++; inside = 1; print substr($0, 5) > (page "/" part "." blocks); next }
        { inside = 0 }
    ' "$1"
}

# The launcher first, which builds the program where that is needed; all other runs are of the program itself.
build_program() {
    built=${CUBEBOARD_PROGRAM:-$root/crates/cubeboard/out/cubeboard}
    program=$built
    [ -n "${CUBEBOARD_PROGRAM:-}" ] || launch cubeboard
}

# The same for the program that joins, which is `$join`.
build_join() {
    join=${CUBEJOIN_PROGRAM:-$root/crates/cubejoin/out/cubejoin}
    [ -n "${CUBEJOIN_PROGRAM:-}" ] || launch cubejoin /dev/null /dev/null
}

# Calls a launcher on an empty bundle, which its program has to refuse: its name and the words.
launch() {
    launched=$1
    shift
    "$root/$launched" "$@" < /dev/null > "$here/out" 2> "$here/err"
    if [ $? -ne 3 ]; then
        cat "$here/err"
        fail "there is no program $launched that refuses an empty bundle, so nothing else is tried"
        finish
    fi
}

# Makes $here/measured, the built program whose peak of memory, in MB, stands in $here/peak behind it.
measured_program() {
    cat > "$here/measured" << MEASURED
#!/bin/sh
exec python3 -c '
import resource, subprocess, sys
status = subprocess.run(sys.argv[2:]).returncode
with open(sys.argv[1], "w") as file:
    print(resource.getrusage(resource.RUSAGE_CHILDREN).ru_maxrss * 1024 // 10**6, file=file)
sys.exit(status)' "$here/peak" "$built" "\$@"
MEASURED
    chmod 755 "$here/measured"
}

# Runs a command in $here/run, for a minute at most: the input, then the command. The input is a file; if `$feed` is set, it comes by a pipe, from the command
# that this names.
note() {
    input=$1
    shift
    if [ -n "${feed:-}" ]; then
        "$feed" "$input" 2> /dev/null | (cd "$here/run" && timeout 60 "$@") > "$here/out" 2> "$here/err"
    else
        (cd "$here/run" && timeout 60 "$@") < "$input" > "$here/out" 2> "$here/err"
    fi
    echo $? > "$here/status"
}

# Runs the program so: the input, then the words.
run() {
    input=$1
    shift
    note "$input" $as_other "$program" "$@"
}

# Whether the last run left these: output, error and status, as files.
has_given() {
    cmp -s "$here/out" "$1" && cmp -s "$here/err" "$2" && cmp -s "$here/status" "$3"
}

# Counts the last run: its name, and the wanted output, error and status.
compare() {
    has_given "$2" "$3" "$4"
    count "$1" $?
}

# Makes $here/run anew with a row's files: their path without the ending.
lay_out() {
    rm -rf "$here/run"
    mkdir "$here/run"
    [ ! -f "$1.icnf" ] || cp "$1.icnf" "$here/run/case.icnf"
    [ ! -f "$1.cnf" ] || cp "$1.cnf" "$here/run/formula.cnf"
    [ ! -d "$1.proofs" ] || cp -r "$1.proofs" "$here/run/proofs"
}

# Calls a command with a row's words behind its own: the path of the row's files without the ending, then the command.
with_words() {
    list=$1.args
    shift
    if [ -f "$list" ]; then
        while IFS= read -r word; do set -- "$@" "$word"; done < "$list"
    fi
    "$@"
}

# One row: the path of its files without the ending, and the words that are put before its own.
row() {
    base=$1
    shift
    lay_out "$base"
    with_words "$base" run "$base.in" "$@"
    compare "$(basename "$base")${1:+" with $*"}" "$base.out" "$base.err" "$base.status"
}

# Whether a row has a word for the workers or the cut: the path of its files without the ending.
has_settings() {
    [ -f "$1.args" ] && grep -q -e '^--workers' -e '^--cut' "$1.args"
}

# Each beginning of the bundle of tests/prefixes, with these words: `answers` there has the least and the greatest length, and the name of what
# is wanted.
beginnings() {
    prefixes=$root/tests/prefixes
    while read -r length last name; do
        while [ "$length" -le "$last" ]; do
            head -c "$length" "$prefixes/bundle.in" > "$here/in"
            run "$here/in" "$@"
            compare "the first $length bytes${1:+" with $*"}" "$prefixes/$name.out" "$prefixes/$name.err" "$prefixes/$name.status"
            length=$((length + 1))
        done
    done < "$prefixes/answers"
}

# Lets the program run as another user where this one is root, who is bound by few limits; and as this one again.
as_another_user() {
    if [ "$(id -u)" -eq 0 ]; then
        as_other="setpriv --reuid=65534 --regid=65534 --clear-groups"
        chmod 711 "$here"
        cp "$program" "$here/program"
        program=$here/program
    fi
}
as_this_user() {
    as_other=
    program=$built
}

# The name of a C compiler, if one is here.
c_compiler() {
    for word in cc gcc clang; do
        if command -v "$word" > /dev/null 2>&1; then
            echo "$word"
            return
        fi
    done
}

# Makes $here/NAME.so of scripts/NAME.c, which runs preload: NAME, and what needs it, which is skipped where there is no C compiler. The status
# is 0 where it is made.
preload() {
    compiler=$(c_compiler)
    if [ -z "$compiler" ]; then
        skip "$2" "there is no C compiler" gcc
        return 1
    fi
    "$compiler" -O1 -shared -fPIC -o "$here/$1.so" "$root/scripts/$1.c" -ldl > "$here/log" 2>&1 && return
    cat "$here/log"
    fail "scripts/$1.c: $compiler doesn't compile it"
    return 1
}

# Runs the program by a pipe: how many bytes a read of it gives at most, which of the reads fails (none if it is 0), what the pipe gives, then the words. If
# that read has failed, $here/mark is there. `preload device` comes first.
read_with() {
    most=$1
    nth=$2
    given=$3
    shift 3
    rm -f "$here/mark"
    feed=cat
    note "$given" env READ_SHORT="$most" READ_FAILS="$nth" WRITE_FILE=-1 WRITE_MARK="$here/mark" LD_PRELOAD="$here/device.so" "$program" "$@"
    feed=
}

# Each read of such a pipe fails in turn, until there are no more; the last one says that the pipe has ended. What it is, how many bytes a read gives at
# most, what the pipe gives, what is wanted if no read fails (a path without .out, .err and .status), then the words. `$reads` is how their number has to
# compare with that of the pieces and one more: -ge if it isn't set, since of a pipe a read may give less.
each_read_fails() {
    what=$1
    size=$2
    from=$3
    whole=$4
    n=1
    shift 4
    while [ "$n" -le 1000 ]; do
        read_with "$size" "$n" "$from" "$@" --record a.record
        [ -f "$here/mark" ] || break
        echo "cubeboard: F13 device" | cmp -s - "$here/err" && [ ! -s "$here/out" ] && [ "$(cat "$here/status")" -eq 5 ]
        count "$what, read $n of $size bytes fails" $?
        [ ! -e "$here/run/a.record" ]
        count "$what, no record where read $n of $size bytes fails" $?
        n=$((n + 1))
    done
    compare "$what by $((n - 1)) reads of $size bytes" "$whole.out" "$whole.err" "$whole.status"
    [ $((n - 1)) "${reads:--ge}" $((($(wc -c < "$from") + size - 1) / size + 1)) ]
    count "$what, each of the reads of $size bytes fails once" $?
    rm -f "$here/run/a.record"
}
