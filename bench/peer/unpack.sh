#!/bin/sh
# unpack.sh [FOLDER]      unpacks Debian's lrat-check, drat-trim and cadical, beside the C library
# that they need, into FOLDER (without a word bench/bin/debian). FOLDER/bin has a wrapper for each.
# The packages are those of Debian's sid, from the mirror that apt is set up with. Nothing of the
# system is changed. It needs apt-get, dpkg-deb and the network, or says what there isn't.
set -eu
here=$(CDPATH= cd -- "$(dirname -- "$0")" && pwd)
folder=${1:-$here/../bin/debian}
keys=/usr/share/keyrings/debian-archive-keyring.gpg

stop() {
    echo "unpack.sh: nothing is unpacked: $1" >&2
    exit 1
}
for word in apt-get dpkg-deb; do
    command -v "$word" > /dev/null || stop "there is no $word here"
done
[ -f "$keys" ] || stop "there is no $keys (Debian: debian-archive-keyring)"
mirror=$(cat /etc/apt/sources.list /etc/apt/sources.list.d/* 2> /dev/null |
    grep -oE 'https?://[^ ]+/debian/?( |$)' | head -n 1 | tr -d ' ' || :)
[ -n "$mirror" ] || stop "apt names no mirror of Debian"

mkdir -p "$folder/apt/lists/partial" "$folder/apt/cache/archives/partial" \
    "$folder/packages" "$folder/root" "$folder/bin"
folder=$(CDPATH= cd -- "$folder" && pwd)
echo "deb [signed-by=$keys] $mirror sid main" > "$folder/apt/sources"
get() {
    apt-get -o "Dir::Etc::sourcelist=$folder/apt/sources" -o Dir::Etc::sourceparts=/dev/null \
        -o "Dir::State::lists=$folder/apt/lists" -o "Dir::Cache=$folder/apt/cache" -qq "$@"
}
get update || stop "apt-get update fails"
rm -f "$folder"/packages/*.deb
for package in drat-trim cadical libc6 libstdc++6 libgcc-s1; do
    (cd "$folder/packages" && get download "$package") || stop "there is no package $package"
done
for package in "$folder"/packages/*.deb; do dpkg-deb -x "$package" "$folder/root"; done

libraries=$folder/root/usr/lib/x86_64-linux-gnu
loader=$(find "$folder/root" -name ld-linux-x86-64.so.2 | head -n 1)
[ -n "$loader" ] || stop "libc6 has no loader for x86-64"
for name in lrat-check drat-trim cadical; do
    printf '#!/bin/sh\nexec "%s" --library-path "%s" "%s" "$@"\n' \
        "$loader" "$libraries" "$folder/root/usr/bin/$name" > "$folder/bin/$name"
    chmod +x "$folder/bin/$name"
done
ls "$folder/packages"
