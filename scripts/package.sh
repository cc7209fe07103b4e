#!/bin/sh
# Makes cubeboard-VERSION-x86_64.tar.gz of the built programs, for machines that have no kit:
# cubeboard and cubejoin, which are scripts/packed.sh and run the programs in lib/, README,
# CHANGELOG, docs/USING.md, docs/FORMATS.md, the examples, the tool that USING compiles from
# bench/tools, the file PROVED, which says of which commit and with which kit each program was
# proved, and the file SHA256SUMS. Then it unpacks the archive elsewhere, runs the first program
# out of it on every example, and joins each report with itself by the second; the last line
# counts.
#
#     sh scripts/package.sh [FOLDER]
#
# Without FOLDER the archive is left in out/ of this folder. The same commit and programs give the same bytes.
root=$(CDPATH= cd -- "$(dirname -- "$0")/.." && pwd) || exit 1
. "$root/scripts/runs.sh"
build_program
build_join
mkdir -p "${1:-$root/out}" || exit 1
target=$(CDPATH= cd -- "${1:-$root/out}" && pwd) || exit 1

# What the program says of itself: `cubeboard VERSION (proved by KIT)`.
said=$("$program" --version 2>&1)
version=$(echo "$said" | sed -n 's/^cubeboard \([0-9.]*\) (proved by .*)$/\1/p')
[ -n "$version" ]
count "the program tells its version" $?
archived=cubeboard-$version-x86_64
archive=$target/$archived.tar.gz

# Of which commit it is, and whether anything differs from it.
commit=$(git -C "$root" rev-parse HEAD 2> /dev/null)
[ -z "$(git -C "$root" status --porcelain 2> /dev/null)" ] || changed=", with changes that aren't committed"
date=$(git -C "$root" log -1 --format=@%ct 2> /dev/null)

# What of the repository the archive has, as it is; scripts/pages.py looks at its links by this line.
packed="README.md CHANGELOG.md docs/USING.md docs/FORMATS.md examples bench/tools/drat2lrat.rs"

# The folder that is packed.
lay_out_package() {
    package=$here/$archived
    mkdir -p "$package/lib"
    cp "$program" "$package/lib/cubeboard"
    cp "$join" "$package/lib/cubejoin"
    for name in cubeboard cubejoin; do
        cp "$root/scripts/packed.sh" "$package/$name"
    done
    (cd "$root" && cp -r --parents $packed "$package/")
    {
        echo "version: $said"
        echo "commit: ${commit:-none}$changed"
        for name in cubeboard cubejoin; do
            echo "program: $name"
            echo "kit: $(cat "$root/crates/$name/out/kit")"
            echo "sources: $(python3 "$root/scripts/build.py" --sum "$name")"
        done
    } > "$package/PROVED"
    (cd "$package" && find . -type f ! -name SHA256SUMS | LC_ALL=C sort | sed 's/^/"/; s/$/"/' | xargs sha256sum > SHA256SUMS)
}

# An example: the path of its report without the ending. A bundle is judged as FILE and as the input, a folder as FILE and proofs; the report is joined
# with itself as one on either.
try_example() {
    example=$(basename "$1")
    folder=$here/unpacked/$archived/examples
    wanted=0
    grep -q '^s OPEN$' "$1.report" && wanted=1
    if [ -f "$folder/$example.icnf" ]; then
        program=$here/unpacked/$archived/cubeboard
        try_run "$example as the input" "$1.report" "$folder/$example.icnf"
        try_run "$example as FILE" "$1.report" "$here/none" "$folder/$example.icnf"
        program=$here/unpacked/$archived/cubejoin
        try_run "the join on $example" "$1.report" "$here/none" --unbound "$folder/$example.icnf" "$folder/$example.report" "$folder/$example.report"
    fi
    if [ -d "$folder/$example" ]; then
        program=$here/unpacked/$archived/cubeboard
        try_run "$example as a folder" "$1.report" "$here/none" --proofs "$folder/$example/proofs" "$folder/$example/case.icnf"
        program=$here/unpacked/$archived/cubejoin
        try_run "the join on $example as a folder" "$1.report" "$here/none" --unbound "$folder/$example/case.icnf" "$folder/$example.report" "$folder/$example.report"
    fi
}

# A run: the claim, the report, the input and the words.
try_run() {
    claim=$1
    report=$2
    shift 2
    run "$@"
    echo "$wanted" > "$here/wanted"
    has_given "$report" "$here/none" "$here/wanted"
    count "$claim" $?
}

lay_out_package
tar -C "$here" --sort=name --owner=0 --group=0 --numeric-owner --mtime="${date:-@0}" -c "$archived" | gzip -n -9 > "$archive"
count "the archive is written" $?
mkdir "$here/unpacked"
tar -C "$here/unpacked" -xzf "$archive" && (cd "$here/unpacked/$archived" && sha256sum --quiet -c SHA256SUMS)
count "the archive is unpacked, with the sums that it names" $?
[ "$(grep -c -x 'kit: .* logic [0-9a-f][0-9a-f]*' "$here/unpacked/$archived/PROVED")" -eq 2 ] &&
    [ "$(sed -n 's/^program: //p' "$here/unpacked/$archived/PROVED" | tr '\n' ' ')" = "cubeboard cubejoin " ]
count "the archive names both programs, and the kit by which each was proved" $?
for report in "$root"/examples/*.report; do try_example "${report%.report}"; done
echo "$script: $archive, $(wc -c < "$archive") bytes"
finish
