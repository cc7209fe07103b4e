#!/bin/sh
# Runs the built program on a few rows, by 1, 2 and 4 workers, with its Nth request for memory refused, for each N from 1
# until a run meets no refusal. Each run has to write the row's exact report with its status, or no report, the status 4 and
# `cubeboard: F6 memory`, or `cubeboard: F14 thread` where the request was made for the start of a thread, which one worker
# makes none of; a join of two records likewise, by `cubejoin`. So it has with little room for addresses, and with few threads for the user: there one worker has to give the
# report where four can't start a thread. Each read that is interrupted, of whatever is read, gives `cubeboard: F13 device`. A
# test of the reader of proof steps is run with its requests refused, too. Requests and reads need a C compiler; where there is none,
# they are skipped, or fail where CI is set. A run that hasn't ended after a minute is ended, and fails. The last line counts.
root=$(CDPATH= cd -- "$(dirname -- "$0")/.." && pwd) || exit 1
. "$root/scripts/runs.sh"
build_program
build_join
echo "cubeboard: F6 memory" > "$here/memory"
echo "cubeboard: F14 thread" > "$here/thread"
limit=10000
echo 0 > "$here/zero"

# Whether the last run, by so many workers, said that memory or the start of a thread was refused, and nothing else.
says_refused() {
    [ "$(cat "$here/status")" = 4 ] && [ ! -s "$here/out" ] \
        && { cmp -s "$here/err" "$here/memory" || { [ "$1" -gt 1 ] && cmp -s "$here/err" "$here/thread"; }; }
}

# Whether the last run said that the start of a thread was refused, and nothing else.
says_thread() {
    says_refused 2 && cmp -s "$here/err" "$here/thread"
}

# Whether the last run is the row's own: its files without the ending.
is_exact() {
    has_given "$1.out" "$1.err" "$1.status"
}

# All requests of one row, by so many workers.
requests() {
    base=$root/tests/rows/$1
    workers=$2
    lay_out "$base"
    request=1
    refused=0
    while [ "$request" -le "$limit" ]; do
        rm -f "$here/mark"
        with_words "$base" note "$base.in" env REFUSE="$request" REFUSED_MARK="$here/mark" LD_PRELOAD="$here/refuse.so" \
            "$program" --workers "$workers"
        is_exact "$base" || { [ -f "$here/mark" ] && says_refused "$workers"; }
        count "$(basename "$base") by $workers workers, request $request" $?
        [ -f "$here/mark" ] || break
        refused=$((refused + 1))
        request=$((request + 1))
    done
    if [ "$refused" -eq 0 ] || [ "$request" -gt "$limit" ]; then
        fail "$(basename "$base") by $workers workers: $refused requests were refused"
    fi
}

# All reads of one row, each of which is interrupted in turn: the standard input's, FILE's and those of a folder's files alike.
reads() {
    base=$root/tests/rows/$1
    lay_out "$base"
    request=1
    while [ "$request" -le "$limit" ]; do
        rm -f "$here/mark"
        with_words "$base" note "$base.in" env INTERRUPT="$request" REFUSED_MARK="$here/mark" LD_PRELOAD="$here/refuse.so" "$program"
        [ -f "$here/mark" ] || break
        [ "$(cat "$here/status")" = 5 ] && [ ! -s "$here/out" ] && [ "$(cat "$here/err")" = "cubeboard: F13 device" ]
        count "$(basename "$base"), read $request interrupted" $?
        request=$((request + 1))
    done
    is_exact "$base" && [ "$request" -gt 2 ] && [ "$request" -le "$limit" ]
    count "$(basename "$base") after $((request - 1)) reads that were interrupted" $?
}

# A join of two records with its requests for memory refused, or its reads interrupted, each in turn: the variable that says which, and how the join has to
# end where it doesn't give the exact report: its status and its line.
joins() {
    data=$root/crates/cubejoin/data
    request=1
    refused=0
    while [ "$request" -le "$limit" ]; do
        rm -f "$here/mark"
        note /dev/null env "$1=$request" REFUSED_MARK="$here/mark" LD_PRELOAD="$here/refuse.so" \
            "$join" "$data/case.icnf" "$data/cubes.record" "$data/missing.record"
        has_given "$root/crates/cubejoin/stdout" "$here/none" "$here/zero" \
            || { [ -f "$here/mark" ] && [ "$(cat "$here/status")" = "$2" ] && [ ! -s "$here/out" ] && [ "$(cat "$here/err")" = "cubejoin: $3" ]; }
        count "a join, $1 $request" $?
        [ -f "$here/mark" ] || break
        [ "$(cat "$here/status")" = 0 ] || refused=$((refused + 1))
        request=$((request + 1))
    done
    [ "$refused" -gt 2 ] && [ "$request" -le "$limit" ]
    count "a join: $refused times $3" $?
}

# A run with a record, and each of its requests for memory refused in turn: the row's exact report and its record, or want of memory and none of the two,
# or a device that failed, where the request was made for writing the record.
records() {
    base=$root/tests/rows/$1
    left=$here/left
    line="i $(sed '/^l /,$d' "$base.in" | sha256sum | cut -d ' ' -f 1)"
    request=1
    while [ "$request" -le "$limit" ]; do
        rm -f "$here/mark" "$left"
        note "$base.in" env REFUSE="$request" REFUSED_MARK="$here/mark" LD_PRELOAD="$here/refuse.so" "$program" --workers 1 --record "$left"
        if is_exact "$base"; then
            [ "$(head -n 1 "$left")" = "$line" ] && sed 1d "$left" | cmp -s - "$here/out"
        else
            [ -f "$here/mark" ] && [ ! -s "$here/out" ] \
                && { { says_refused 1 && [ ! -e "$left" ]; } || { [ "$(cat "$here/status")" = 5 ] && [ "$(cat "$here/err")" = "cubeboard: F13 device" ]; }; }
        fi
        count "a record of $1, request $request" $?
        [ -f "$here/mark" ] || break
        request=$((request + 1))
    done
    [ "$request" -gt 2 ] && [ "$request" -le "$limit" ]
    count "a record of $1: $((request - 1)) requests" $?
}

# One row by so many workers under a limit of the system: what sets it to $1, and the limit.
limited() {
    with_words "$base" note "$base.in" $as_other sh -c "$2"' && shift && exec "$@"' sh "$3" "$program" --workers "$1"
}

# One row with little room for addresses, from enough for one thread's stack to enough for all: by one worker the row's exact report,
# by more that, or that the start of a thread (or memory) was refused. The least room has to refuse four workers, the greatest nobody.
little_room() {
    base=$root/tests/rows/$1
    room='ulimit -S -s 8192 && ulimit -v "$1"'
    if ! sh -c "$room" sh 1000000 2> /dev/null; then
        skip "little room for addresses" "it can't be set here"
        return
    fi
    for kilobytes in 20000 25000 30000 100000 1000000; do
        for workers in 1 2 4; do
            limited "$workers" "$room" "$kilobytes"
            case $workers-$kilobytes in
                1-* | *-1000000) is_exact "$base" ;;
                4-20000) says_thread ;;
                *) is_exact "$base" || says_refused "$workers" ;;
            esac
            count "$1 by $workers workers with $kilobytes KB of addresses" $?
        done
    done
}

# One row with few threads for the user: by one worker the row's exact report, by more that, or that the start of a thread was refused,
# which it has to be where the user may have one. Root isn't bound by such a limit, so the program runs as another user then.
few_threads() {
    base=$root/tests/rows/$1
    lay_out "$base"
    few='{ ulimit -u "$1" 2> /dev/null || ulimit -p "$1"; }'
    as_another_user
    # timeout can't start what it is to run where the limit is kept.
    if ! $as_other test -x "$program" 2> /dev/null; then
        skip "few threads for the user" "no other user can run the program"
    elif $as_other sh -c "$few && exec timeout 20 true" sh 1 2> /dev/null; then
        skip "few threads for the user" "nobody here is bound by such a limit"
    else
        for threads in 1 2 3 4; do
            for workers in 1 2 4; do
                limited "$workers" "$few" "$threads"
                case $workers-$threads in
                    1-*) is_exact "$base" ;;
                    *-1) says_thread ;;
                    *) is_exact "$base" || says_thread ;;
                esac
                count "$1 by $workers workers with $threads threads for the user" $?
            done
        done
    fi
    as_this_user
}

# The reader of proof steps, by a test of the suite that the gate has left: a refused call changes nothing, so the next one gives
# the step that it would have given.
next_step() {
    tests=$root/crates/suite/out/suite_tests
    if [ ! -x "$tests" ]; then
        skip "the test of the next step" "rt ci hasn't built it"
        return
    fi
    request=1
    refused=0
    while [ "$request" -le "$limit" ]; do
        rm -f "$here/mark"
        note /dev/null env REFUSE="$request" REFUSED_MARK="$here/mark" LD_PRELOAD="$here/refuse.so" \
            "$tests" lrat_text_tests::step_after_refused_memory
        [ "$(cat "$here/status")" = 0 ]
        count "the next step, request $request" $?
        [ -f "$here/mark" ] || break
        refused=$((refused + 1))
        request=$((request + 1))
    done
    [ "$refused" -gt 0 ]
    count "the next step: $refused requests were refused" $?
}

if preload refuse "requests for memory, reads that are interrupted and the test of the next step"; then
    joins REFUSE 4 "F6 memory"
    joins INTERRUPT 5 "F13 device"
    records two_cubes_refuted
    for name in two_cubes_refuted missing_leaf_open proof_for_an_inner_node folder_of_proofs folder_with_missing_leaves \
        second_section_of_a_cube proof_in_file_and_folder; do
        for workers in 1 2 4; do
            requests "$name" "$workers"
        done
    done
    reads two_cubes_refuted
    reads folder_with_missing_leaves
    next_step
fi
little_room two_cubes_refuted
# (from standard input, from a file, and from a folder: all start their threads once, and each refused start is told)
for name in two_cubes_refuted binary_proof_in_a_section_of_a_file folder_of_proofs; do few_threads "$name"; done
finish
