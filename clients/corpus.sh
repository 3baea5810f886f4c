#!/bin/sh
# Holds the engine's reading of JSON against other parsers' test corpora, as packages of Debian 12 carry them: what these call valid and
# invalid. Fetches the packages by name into target/corpus, where they stay for the next run, and installs nothing; needs apt-get, tar,
# dpkg-deb, Python and a C compiler. RMA_LIB_DIR names a folder with librma.a; without it the library is proved and built first. Exits with
# 0 when the differences are those that corpus.txt lists, no more and no fewer.
set -eu
cd "$(dirname "$0")/.."
folder=$PWD/target/corpus
sources='haskell-aeson libcpanel-json-xs-perl yojson haskell-json libjsoncpp jansson yajl golang-github-valyala-fastjson tao-json lua-cjson
json-c cjson'
binaries='libpython3.11-testsuite python3-simplejson'

# apt-get with lists of its own, so that the machine's stay as they are.
apt() {
    apt-get -q -o Dir::Etc::SourceList="$folder/sources.list" -o Dir::Etc::SourceParts=/dev/null -o Dir::State="$folder/state" \
        -o Dir::Cache="$folder/cache" -o APT::Sandbox::User=root "$@" >>"$folder/apt.log" 2>&1
}

# Fetches the lists, unless they are there.
lists() {
    [ ! -f "$folder/sources.list" ] || return 0
    mkdir -p "$folder/state/lists/partial" "$folder/cache/archives/partial"
    apt_from='[signed-by=/usr/share/keyrings/debian-archive-keyring.gpg] http://deb.debian.org/debian bookworm main'
    printf 'deb %s\ndeb-src %s\n' "$apt_from" "$apt_from" >"$folder/sources.list"
    apt update || { rm "$folder/sources.list"; tail -3 "$folder/apt.log"; exit 2; }
}

# fetched KIND PACKAGE: unpacks it into a folder of its name, unless that is there.
fetched() {
    [ ! -d "$folder/packages/$2" ] || return 0
    lists
    rm -rf "$folder/new"
    mkdir -p "$folder/new/unpacked" "$folder/packages"
    if [ "$1" = source ]; then
        (cd "$folder/new" && apt source --download-only --tar-only "$2" && tar -xf "$2"_*.orig.tar.* -C unpacked)
    else
        (cd "$folder/new" && apt download "$2" && dpkg-deb -x "$2"_*.deb unpacked)
    fi || { tail -3 "$folder/apt.log"; echo "cannot be fetched: $2"; exit 2; }
    mv "$folder/new/unpacked" "$folder/packages/$2"
    (cd "$folder/new" && for file in "$2"_*.orig.tar.* "$2"_*.deb; do [ ! -f "$file" ] || echo "$file"; done) >>"$folder/versions"
}

mkdir -p "$folder"
for package in $sources; do fetched source "$package"; done
for package in $binaries; do fetched binary "$package"; done
if [ -z "${RMA_LIB_DIR:-}" ]; then
    tools/staticlib.sh >"$folder/staticlib.log" 2>&1 || { tail -5 "$folder/staticlib.log"; exit 2; }
    RMA_LIB_DIR=target/staticlib
fi
"${CC:-cc}" -std=c99 -Wall -Wextra -Wpedantic -Werror -O2 -I include clients/read.c "$RMA_LIB_DIR/librma.a" -o "$folder/read"
python3 -B clients/corpus.py "$folder/read" "$folder/packages" clients/corpus.txt
