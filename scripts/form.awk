# Looks at the form of a report, as docs/FORMATS.md has it: the status is 0 where the file has that form and its last line is `s ANSWER`, for the word
# `answer`. Which lines are there, their fields, their order and their numbers are looked at, and that as many cubes and missing leaves have a line as
# the first line says; not whether it is the right report.

function is(form) { return $0 ~ "^" form "$" }

# The place of a line's kind in the order of the report, or 0 where the line has no kind's form.
function place_of(    number, path, judged) {
    number = "[1-9][0-9]*"
    path = "(-?" number " )*0"
    judged = "(refuted|rejected " number " (unreadable|id|hint|unit|empty|candidate|group|end))"
    if (is("t (0|" number ") (0|" number ") " number)) return 1
    if (is("a " number " (open|" judged ")")) return 2
    if (is("m " number " " path " (open|" judged ")")) return 3
    if (is("n " path " " judged)) return 4
    if (is("o " path)) return 5
    if (is("w (0|" number ")")) return 6
    return is("s (REFUTED|OPEN)") ? 7 : 0
}

{
    place = place_of()
    lines[place]++
    if (place < last || (place == 2 || place == 3) && $2 != lines[place]) wrong = 1
    last = place
    if (place == 1) { cubes = $2; missing = $3 }
    if (place == 6) weight = $2
    said = $2
}

# Where it is refuted nothing is open, neither weight nor branch, and otherwise there is both.
END {
    refuted = answer == "REFUTED"
    right = !wrong && !lines[0] && lines[1] == 1 && lines[2] + 0 == cubes && lines[3] + 0 == missing && lines[6] == 1 && lines[7] == 1
    exit !(right && said == answer && (weight == "0") == refuted && (lines[5] + 0 == 0) == refuted)
}
