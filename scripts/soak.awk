# Makes small random bundles for scripts/soak.sh: `count` of them, numbered on from `first`, as files NUMBER.in in `folder`, and prints
# a line for each, its number and the words that it is to be run with. The same `seed` and `first` give the same ones with the same awk.
#
# A bundle has a random formula over few variables, a random tree of cubes, some branches of which no cube covers, and sections in random
# order. A proof comes from a search for a model of formula and path, which adds the negation of its decisions where propagation
# finds a conflict, and so refutes them where there is no model; some of the proofs are then damaged, or are put under another label.

function random(n) { return int(rand() * n) }
function chance(percent) { return random(100) < percent }

# One of the texts in a list, which commas part.
function one_of(list,    parts, n) {
    n = split(list, parts, ",")
    return parts[1 + random(n)]
}

# A token that may stand nowhere, or not where it is put.
function hostile() {
    return one_of("-0,+1,-,00,0,a,p,l,d,c,x,1x,-1,m1,n,268435456,268435455,-268435455,4611686018427387904,4611686018427387905," \
        "99999999999999999999999,\377,\001,\r,\nl,\nl1,\nl 1\n,\n\tl m1\n,\nl\tn\t0\n,\nc,\nc l 1\n,\nl n 0 0\n,\na 0\n")
}

# Makes a clause live in the search: its literals are clause[id, 1] to clause[id, size[id]].
function keep(id, text,    parts, i) {
    size[id] = split(text, parts, " ")
    for (i = 1; i <= size[id]; i++) clause[id, i] = parts[i]
    live[++lives] = id
}

# Follows the decisions and the units that the live clauses give: true where they come to a conflict, `hints` being how.
function propagate(decisions,    i, j, c, id, open, last, moved, parts, n) {
    split("", holds)
    hints = ""
    n = split(decisions, parts, " ")
    for (i = 1; i <= n; i++) holds[parts[i]] = 1
    do {
        moved = 0
        for (c = 1; c <= lives; c++) {
            id = live[c]
            open = 0
            for (j = 1; j <= size[id]; j++) {
                if (clause[id, j] in holds) { open = 2; break }
                if (!(-clause[id, j] in holds) && (!open || clause[id, j] != last)) { open++; last = clause[id, j] }
            }
            if (open < 2) hints = hints " " id
            if (open == 0) return 1
            if (open == 1) { holds[last] = 1; moved = 1 }
        }
    } while (moved)
    return 0
}

# Refutes the decisions: adds steps to `steps`, and answers the id of the clause that is their negation, or 0 where they have a model.
function refute(decisions,    v, left, right, id) {
    if (propagate(decisions)) return add(decisions, substr(hints, 2))
    for (v = 1; v <= variables && (v in holds || -v in holds); v++);
    if (v > variables) return 0
    left = refute(decisions " " v)
    if (!left) return 0
    right = refute(decisions " " (-v))
    return right ? add(decisions, left " " right) : 0
}

function add(decisions, by,    parts, n, i, text) {
    n = split(decisions, parts, " ")
    for (i = 1; i <= n; i++) text = text (-parts[i]) " "
    steps = steps (++last_id) " " text "0 " by " 0" (chance(5) ? " " : "\n")
    return last_id
}

# A proof for a path, or what the search came to before it found a model.
function proof(path,    i, n, parts) {
    lives = clauses_read
    n = split(path, parts, " ")
    for (i = 1; i <= n; i++) keep(clauses_read + i, parts[i])
    last_id = clauses_read + n
    steps = ""
    if (chance(10)) steps = (last_id += 1 + random(3)) " " (20 + random(9)) " " (1 + random(3)) " 0 0\n"
    if (!clean && chance(10)) steps = steps random(9) " d " 1 + random(clauses_read + 2) " 0\n"
    if (!clean && chance(10)) resolvable()
    refute("")
    return steps
}

# Adds two steps over a new variable, the second of which needs a group for the first, or doesn't, and has one, or none.
function resolvable(    v, w, by) {
    v = (chance(50) ? "" : "-") 1 + random(variables)
    w = (chance(50) ? "" : "-") 1 + random(variables)
    steps = steps (++last_id) " 30 " v " 0 0\n"
    by = chance(80) ? "-" last_id " " 1 + random(clauses_read) " " last_id " " : ""
    steps = steps (++last_id) " -30 " w " 0 " by "0\n"
}

# A damaged text: a token is dropped, changed, or put in, or the text is cut off.
function damaged(text,    at, n) {
    n = length(text)
    at = random(n + 1)
    if (chance(20)) return substr(text, 1, at)
    if (chance(30)) return substr(text, 1, at) " " hostile() " " substr(text, at + 1)
    if (chance(50)) return substr(text, 1, at) random(10) substr(text, at + 2)
    return substr(text, 1, at) substr(text, at + 2 + random(4))
}

# A random tree below a path: its cubes join `cubes`, the branches that none covers `missing`, and all its inner nodes `nodes`.
function grow(path, depth,    v, branch) {
    if (depth >= 7 || !chance(depth < 3 ? 85 : 60)) {
        cubes[++cubes_made] = path
        return
    }
    nodes[++nodes_made] = path
    v = 1 + random(variables)
    branch = chance(15) ? 1 + random(2) : 0
    if (branch == 1) missing[++missing_made] = path " " v
    else grow(path " " v, depth + 1)
    if (branch == 2) missing[++missing_made] = path " " (-v)
    else grow(path " " (-v), depth + 1)
}

# Places from 1 to n in random order, in `order`.
function shuffle(n,    i, j, held) {
    for (i = 1; i <= n; i++) order[i] = i
    for (i = n; i > 1; i--) { j = 1 + random(i); held = order[i]; order[i] = order[j]; order[j] = held }
}

# Random clauses, and often four that have no model together.
function formula(    i, j, n, text, literals) {
    clauses_read = lives = 0
    n = chance(95) ? 2 + random(4 * variables) : 0
    for (i = 1; i <= n; i++) {
        literals = ""
        for (j = chance(99) ? 1 + random(3) : 0; j > 0; j--) literals = literals (chance(50) ? "" : "-") 1 + random(variables) " "
        text = text read_clause(literals)
    }
    if (chance(40)) text = text read_clause("1 2 ") read_clause("-1 2 ") read_clause("1 -2 ") read_clause("-1 -2 ")
    return text "\n"
}

function read_clause(literals) {
    keep(++clauses_read, literals)
    return literals "0" (chance(95) ? "\n" : " ")
}

# A section for a path, or none. In a bundle that is clean each has its own proof.
function section(label, path,    text) {
    if (clean) return "l " label "\n" proof(path)
    if (chance(20)) return ""
    if (chance(3) && cubes_made) path = cubes[1 + random(cubes_made)]
    text = chance(10) ? "" : proof(path)
    return "l " label "\n" (chance(15) ? damaged(text) : text) "\n"
}

function bundle(    i, n, text, sections) {
    cubes_made = missing_made = nodes_made = n = 0
    variables = 2 + random(5)
    clean = chance(30)
    text = "p inccnf\n" formula()
    if (chance(97)) grow("", 0)
    else missing[++missing_made] = ""
    shuffle(cubes_made)
    for (i = 1; i <= cubes_made; i++) text = text "a" cubes[order[i]] " 0\n"
    for (i = 1; i <= cubes_made; i++) sections[++n] = section(i, cubes[order[i]])
    for (i = 1; i <= missing_made; i++) sections[++n] = section("m" i, missing[i])
    for (i = 1; i <= nodes_made; i++) if (chance(15)) sections[++n] = section("n" nodes[i] " 0", nodes[i])
    if (chance(2)) sections[++n] = "l " one_of("0,1,01,m1,m01,n,m,9999,-1,n 0,n 1 0") "\n"
    shuffle(n)
    for (i = 1; i <= n; i++) text = text sections[order[i]]
    return !clean && chance(9) ? damaged(text) : text
}

BEGIN {
    srand(seed + first)
    for (number = first; number < first + count; number++) {
        file = folder "/" number ".in"
        printf "%s", bundle() > file
        close(file)
        print number, "--workers", 1 + (chance(50) ? random(8) : random(32)), "--cut", random(7)
    }
}
