#!/bin/sh
# Draws pictures by the built program: of the examples, of random trees, of trees of 100,000 cubes and of great depth. What is found of their leaves
# and nodes is known without the program: from the examples' reports, or from how they are made. By that scripts/draw.py draws each picture, and the
# program's has to be the same, and its report has to say just that, with the answer and the open weight that stand in the picture; where the tree is
# great the picture has to be less than 2 MB of XML. Then a tree whose nodes have each of the colors: its report, and the colors of its cells, as
# docs/FORMATS.md says them, by what the picture itself says of its classes. Then pixels of that picture, and of the last row of one whose leaves are all
# refuted, drawn by librsvg and by a headless Chromium, as far as these are there (Debian's librsvg2-bin is small, Chromium hundreds of megabytes): drawings
# that share nothing with the program or with scripts/draw.py. The last line counts.
root=$(CDPATH= cd -- "$(dirname -- "$0")/.." && pwd) || exit 1
. "$root/scripts/runs.sh"
build_program
whole=1152921504606846976

# The last two lines of the report that goes with a picture: the open weight and the answer.
end_of() {
    sed -n 's/^<text x="8" y="26">\(s [A-Z]*\)$/\1/p; s/^<text x="130" y="26">[0-9.]* % open, \(w [0-9]*\) of [0-9]*<\/text>$/\1/p' "$1" | sort -r
}

# Draws a bundle's picture, $here/drawn, and looks whether it is scripts/draw.py's and whether report and status go with it: a file with the lines
# `a`, `m` and `n` of the report that the bundle has to have, the bundle, and further words.
same() {
    findings=$1
    bundle=$2
    shift 2
    rm -f "$here/drawn"
    run /dev/null --map "$here/drawn" "$@" "$bundle"
    python3 "$root/scripts/draw.py" "$bundle" "$findings" > "$here/picture" && cmp -s "$here/picture" "$here/drawn" || return 1
    grep '^[amn] ' "$findings" > "$here/wanted"
    end_of "$here/picture" >> "$here/wanted"
    grep '^[amnws] ' "$here/out" | cmp -s - "$here/wanted" || return 1
    grep -q '^s REFUTED$' "$here/wanted"
    [ $? -eq "$(cat "$here/status")" ] && [ ! -s "$here/err" ]
}

# The examples, as bundles and as folders.
for picture in "$root"/examples/*.svg; do
    example=${picture%.svg}
    if [ -f "$example.icnf" ]; then
        same "$example.report" "$example.icnf" && cmp -s "$picture" "$here/drawn"
        count "the picture of $(basename "$example").icnf" $?
    fi
    if [ -d "$example" ]; then
        same "$example.report" "$example/case.icnf" --proofs "$example/proofs" && cmp -s "$picture" "$here/drawn"
        count "the picture of $(basename "$example")/proofs" $?
    fi
done

for seed in $(seq 40); do
    python3 "$root/scripts/random_bundle.py" "$seed" "$here/findings" > "$here/random.icnf" && same "$here/findings" "$here/random.icnf"
    count "the picture of the random tree $seed" $?
done

# The four cubes of two variables, with proofs for the node `1` and the first leaf, and one that names no live clause for the third leaf.
printf '%s\n' 'p inccnf' '1 2 0' '1 -2 0' '-1 2 0' '-1 -2 0' 'a 1 2 0' 'a 1 -2 0' 'a -1 2 0' 'a -1 -2 0' \
    'l n 1 0' '6 0 5 3 4 0' 'l 1' '7 0 5 6 4 0' 'l 3' '7 0 9 0' > "$here/colors.icnf"
printf '%s\n' "t 4 0 $whole" 'a 1 refuted' 'a 2 open' 'a 3 rejected 1 hint' 'a 4 open' 'n 1 0 refuted' 'o -1 0' "w $((whole / 2))" \
    's OPEN' > "$here/colors.report"
echo 1 > "$here/one"
browser=$(command -v chromium || command -v chromium-browser || command -v google-chrome)

# Whether pixels of a picture have their colors, by each program that is there to draw it: a claim, the picture, and then X,Y,RRGGBB for each pixel.
pixels() {
    claim=$1
    cp "$2" "$here/shown.svg" || return
    shift 2
    rm -f "$here"/*.png
    if command -v rsvg-convert > /dev/null; then
        rsvg-convert --output "$here/librsvg.png" "$here/shown.svg" && python3 "$root/scripts/picture.py" "$here/librsvg.png" "$@"
        count "$claim, by librsvg" $?
    fi
    if [ -n "$browser" ]; then
        timeout 60 "$browser" --headless --no-sandbox --disable-gpu --hide-scrollbars --user-data-dir="$here/browser" \
            --window-size=2048,330 --screenshot="$here/chromium.png" "file://$here/shown.svg" > "$here/log" 2>&1
    fi
    if [ -s "$here/chromium.png" ]; then
        python3 "$root/scripts/picture.py" "$here/chromium.png" "$@"
        count "$claim, by Chromium" $?
    fi
    [ -s "$here/librsvg.png" ] || [ -s "$here/chromium.png" ] || skip "$claim" "neither rsvg-convert nor a Chromium that shows a page is here"
}
run /dev/null --map "$here/colors.svg" "$here/colors.icnf"
compare "the report on a tree of all colors" "$here/colors.report" "$here/none" "$here/one"

# The cells of a picture, those of its rectangles that tell of a node: where each is, its width, its color, that of its edge, and what it tells. The
# picture's style says what colors a rectangle has, and a class, or a rectangle of a class: the last class that names one decides.
cells() {
    awk -F '"' '
        # The color that the rule of a name gives to a thing, or nothing.
        function color(of, what,    rule) {
            if (!index(style, "}" of "{")) return ""
            rule = substr(style, index(style, "}" of "{") + length(of) + 1)
            rule = substr(rule, 1, index(rule, "}"))
            return match(rule, "[{;]" what ":#[0-9A-F]*") ? substr(rule, RSTART + length(what) + 2, 7) : ""
        }
        /^<style>/ { style = $0 }
        /<title>/ {
            fill = color("rect", "fill")
            edge = color("rect", "stroke")
            n = split($2, classes, " ")
            for (i = 1; i <= n; i++) {
                for (of = 1; of <= 2; of++) {
                    name = (of == 1 ? "." : "rect.") classes[i]
                    if (color(name, "fill")) fill = color(name, "fill")
                    if (color(name, "stroke")) edge = color(name, "stroke")
                }
            }
            told = $0
            gsub(/^.*<title>|<.title>.*$/, "", told)
            print $4, $6, $8, fill, edge, told
        }
    ' "$1"
}

# The root in light blue, `1` in blue with a black edge and `-1` in yellow, and the leaves: blue, grey, red, yellow.
printf '%s\n' "0 40 2048 #56B4E9 #FFFFFF n 0 w $((whole / 2))" '0 64 1024 #0072B2 #000000 n 1 0 refuted w 0' '0 88 512 #0072B2 #FFFFFF a 1 refuted' \
    '512 88 512 #BBBBBB #FFFFFF a 2 open' "1024 64 1024 #F0E442 #FFFFFF n -1 0 w $((whole / 2))" '1024 88 512 #D55E00 #FFFFFF a 3 rejected 1 hint' \
    '1536 88 512 #F0E442 #FFFFFF a 4 open' > "$here/wanted"
[ -f "$here/colors.svg" ] && cells "$here/colors.svg" | cmp -s - "$here/wanted"
count "the colors, edges and places of seven cells" $?
# The root, the nodes `1` and `-1`, and the four leaves.
pixels "the pixels of seven cells" "$here/colors.svg" 1024,51,56B4E9 512,75,0072B2 1536,75,F0E442 \
    256,99,0072B2 768,99,BBBBBB 1280,99,D55E00 1792,99,F0E442

# A tree of 2,048 cubes, each of which is refuted: in its last row cells are 1 wide, and have their color all the same.
awk 'BEGIN {
    print "p inccnf\n1 2 0\n1 -2 0\n-1 2 0\n-1 -2 0"
    for (i = 0; i < 2048; i++) {
        line = "a"
        for (v = 1; v <= 11; v++) line = line " " (int(i / 2 ^ (11 - v)) % 2 ? -v - 2 : v + 2)
        print line " 0"
    }
    for (i = 1; i <= 2048; i++) print "l " i "\n16 1 0 1 2 0\n17 0 16 3 4 0"
}' > "$here/full.icnf"
awk '/^a/ { print "a " ++cubes " refuted" }' "$here/full.icnf" > "$here/findings"
same "$here/findings" "$here/full.icnf"
count "a picture of a tree of refuted leaves" $?
pixels "the pixels of its last row" "$here/drawn" 3,315,0072B2 1000,315,0072B2 1001,315,0072B2 2046,315,0072B2

# A tree of 131,072 cubes that is 17 deep, and one of 2,000 cubes along a path, which is 1,999 deep.
awk 'BEGIN {
    print "p inccnf"
    for (i = 0; i < 131072; i++) {
        line = "a"
        for (v = 1; v <= 17; v++) line = line " " (int(i / 2 ^ (17 - v)) % 2 ? -v : v)
        print line " 0"
    }
}' > "$here/wide.icnf"
awk 'BEGIN {
    print "p inccnf"
    for (i = 1; i <= 1999; i++) { print "a " front i " 0"; front = front (-i) " " }
    print "a " front "0"
}' > "$here/deep.icnf"
for tree in wide deep; do
    awk '/^a/ { print "a " ++cubes " open" }' "$here/$tree.icnf" > "$here/findings"
    same "$here/findings" "$here/$tree.icnf" && [ "$(wc -c < "$here/drawn")" -lt 2000000 ] \
        && python3 -c 'import sys, xml.etree.ElementTree as tree; tree.parse(sys.argv[1])' "$here/drawn"
    count "a picture of a $tree tree" $?
done
finish
