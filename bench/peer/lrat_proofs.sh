# What lrat_check.sh makes for its parts, by `cadical`, `drat-trim`, `cubesplit` and `drat2lrat`.
# The script that reads this file has set `bench`, `bin` and `work`, and has `skip`.

gen() {
    python3 "$bench/tools/gen.py" "$@"
}

# Whether there is a program of this name; if not, what is skipped: the program, and what needs it.
needs() {
    case $1 in
        cadical) cadical --help 2> /dev/null | grep -q -e --lrat && return ;;
        *) command -v "$1" > /dev/null && return ;;
    esac
    case $1 in
        cadical) skip "$2" "there is no cadical that has --lrat (sh bench/peer/unpack.sh)" ;;
        drat-trim | lrat-check) skip "$2" "there is no $1 (sh bench/peer/unpack.sh)" ;;
        *) skip "$2" "there is no $1" ;;
    esac
    return 1
}

# Compiles a tool in Rust if its source is newer: its name, and the folder of its source.
tool() {
    if [ ! -x "$bin/$1" ] || [ -n "$(find "$2/$1.rs" -newer "$bin/$1")" ]; then
        rustc -O --edition 2024 -o "$bin/$1" "$2/$1.rs"
    fi
}

# Solves a formula by CaDiCaL, which has to refute it: the formula, the proof, and the form of that.
refute() {
    status=0
    cadical -q --no-binary ${3:-} "$1" "$2.new" < /dev/null > /dev/null || status=$?
    if [ "$status" -ne 20 ]; then
        echo "lrat_check.sh: cadical doesn't refute $1: its status is $status"
        exit 1
    fi
    mv "$2.new" "$2"
}

# Makes LRAT of DRAT: the path of NAME.cnf, NAME.drat and NAME.lrat without ending, and the tool.
convert() {
    case $2 in
        drat-trim)
            drat-trim "$1.cnf" "$1.drat" -L "$1.new" > "$1.log" || :
            grep -q 's VERIFIED' "$1.log"
            ;;
        drat2lrat) "$bin/drat2lrat" make "$1.cnf" "$1.new" "$1.drat" ;;
    esac
    mv "$1.new" "$1.lrat"
}

# Small proofs in a folder: the solver's LRAT, and its DRAT by way of drat-trim.
solved_proofs() {
    for spec in "php 5" "tseitin 10 4 1" "schur 14 3" "vdw2 22 3 5" "rand3 50 260 1"; do
        name=$1/$(echo "$spec" | tr ' ' -)
        gen $spec > "$name.cnf"
        refute "$name.cnf" "$name.lrat" --lrat
        if command -v drat-trim > /dev/null; then
            cp "$name.cnf" "$name-trim.cnf"
            refute "$name.cnf" "$name-trim.drat"
            convert "$name-trim" drat-trim
        fi
    done
}

# Pigeons by extended resolution in a folder, which has RAT steps: the folder, the tool, the holes.
resolved_proofs() {
    folder=$1
    by=$2
    shift 2
    for holes in "$@"; do
        name=$folder/php$holes-er-$by
        gen php "$holes" > "$name.cnf"
        gen php_er "$holes" > "$name.drat"
        convert "$name" "$by"
    done
}

# A leaf that the solver refutes: its name, and the words for gen.py.
solved_leaf() {
    leaf=$work/leaves/$1
    shift
    [ ! -f "$leaf/proofs/1.lrat" ] || return 0
    mkdir -p "$leaf/proofs"
    gen "$@" > "$leaf/formula.cnf"
    refute "$leaf/formula.cnf" "$leaf/proofs/1.lrat" --lrat
}

# A leaf of pigeons by extended resolution: its name, the tool, and the holes.
resolved_leaf() {
    leaf=$work/leaves/$1
    [ ! -f "$leaf/proofs/1.lrat" ] || return 0
    mkdir -p "$leaf/proofs"
    resolved_proofs "$leaf" "$2" "$3"
    mv "$leaf/php$3-er-$2.cnf" "$leaf/formula.cnf"
    mv "$leaf/php$3-er-$2.lrat" "$leaf/proofs/1.lrat"
}

# The run: how many leaves it has at most, and the words for gen.py. A leaf's formula is the whole
# one with the literals of its cube as units.
solved_run() {
    run=$work/run
    [ ! -f "$run/made" ] || return 0
    mkdir -p "$run/proofs" "$run/leaves"
    most=$1
    shift
    gen "$@" > "$run/formula.cnf"
    "$bin/cubesplit" "$run/formula.cnf" "$most" > "$run/cubes"
    number=0
    while read -r _ literals; do
        number=$((number + 1))
        awk -v literals="${literals% 0}" '
            BEGIN { count = split(literals, units, " ") }
            $1 == "p" { $4 += count }
            { print }
            END { for (i = 1; i <= count; i++) print units[i], 0 }
        ' "$run/formula.cnf" > "$run/leaves/$number.cnf"
        refute "$run/leaves/$number.cnf" "$run/proofs/$number.lrat" --lrat
    done < "$run/cubes"
    : > "$run/made"
}
