#!/bin/sh
# Has jq, Python, Node and PostgreSQL read what the engine writes as JSON, and compares what they find with the cells; then has them write
# it back, and the engine read that. Installs what is missing from Debian's packages, as root. RMA_LIB_DIR names a folder with librma.a;
# without it the library is proved and built first. All goes to target/clients, the database to a temporary folder that is removed. Exits
# with 0 when nothing is wrong.
set -eu
cd "$(dirname "$0")/.."
built=target/clients
rm -rf "$built"
mkdir -p "$built/texts"

# Installs what is missing.
install_missing() {
    missing=
    command -v jq >/dev/null || missing="$missing jq"
    command -v python3 >/dev/null || missing="$missing python3"
    command -v node >/dev/null || missing="$missing nodejs"
    ls /usr/lib/postgresql/*/bin/initdb >/dev/null 2>&1 || missing="$missing postgresql"
    echo '#include <stdio.h>' | "${CC:-cc}" -E - >/dev/null 2>&1 || missing="$missing gcc libc6-dev"
    [ -n "$missing" ] || return 0
    [ "$(id -u)" = 0 ] || { echo "missing, and only root can install it:$missing"; exit 1; }
    apt-get update -q
    # shellcheck disable=SC2086 # a word a package
    apt-get install -y --no-install-recommends $missing
}

# compiled PROGRAM: from its C file, with the library.
compiled() {
    "${CC:-cc}" -std=c99 -Wall -Wextra -Wpedantic -Werror -O2 -I include "clients/$1.c" "$RMA_LIB_DIR/librma.a" -o "$built/$1"
}

# Makes the texts. The status is the number of checks that failed.
write_texts() {
    if [ -z "${RMA_LIB_DIR:-}" ]; then
        tools/staticlib.sh >"$built/staticlib.log" 2>&1 || { tail -5 "$built/staticlib.log"; exit 1; }
        RMA_LIB_DIR=target/staticlib
    fi
    compiled write
    compiled read
    failed=0
    "$built/write" "$built" || failed=$?
}

# by NAME VERSION KIND COMMAND..: what this reader finds goes to a file of its own, after its name, version and kind: `exact`, or `double`
# if its numbers may be doubles.
by() {
    readers=$((readers + 1))
    printf '%s\t%s\t%s\n' "$1" "$2" "$3" >"$built/found-$readers"
    shift 3
    "$@" >>"$built/found-$readers" || echo "failed: $1"
}

read_by_jq() {
    for text in "$built"/texts/*.json; do
        echo "== $(basename "$text" .json)"
        jq -r -f clients/read.jq "$text" 2>&1 || true
    done
}

# as COMMAND..: in the cluster's folder, and where this is root as the user postgres: a cluster refuses root.
as() {
    if [ "$(id -u)" = 0 ]; then (cd "$cluster" && runuser -u postgres -- "$@"); else "$@"; fi
}

# Starts a cluster in the temporary folder, with no other way in than a socket there.
start_cluster() {
    for bin in /usr/lib/postgresql/*/bin; do :; done # the newest
    cluster=$(mktemp -d)
    trap stop_cluster EXIT
    trap 'exit 1' HUP INT TERM
    [ "$(id -u)" != 0 ] || chown postgres "$cluster"
    { as "$bin/initdb" -D "$cluster/data" -U postgres -A trust -E UTF8 --locale=C --no-sync &&
        as "$bin/pg_ctl" -D "$cluster/data" -l "$cluster/log" -o "-h '' -k '$cluster' -F" -w start
    } >"$built/cluster.log" 2>&1 || { tail -5 "$built/cluster.log"; exit 1; }
}

stop_cluster() {
    [ ! -f "$cluster/data/postmaster.pid" ] || as "$bin/pg_ctl" -D "$cluster/data" -m immediate stop >/dev/null
    rm -rf "$cluster"
}

asked() {
    psql -h "$cluster" -U postgres -d postgres -XAtq "$@"
}

read_by_postgresql() {
    for text in "$built"/texts/*.json; do
        # shellcheck disable=SC2016 # psql's backticks
        printf '\\echo == %s\n\\set text `cat %s`\n\\i clients/read.sql\n' "$(basename "$text" .json)" "$text"
    done | asked 2>"$built/psql.log"
}

# has_source: whether Node hands a reviver the source text of a number, with the flag that tells it to.
has_source() {
    node ${flag:+"$flag"} -e 'process.exit(JSON.parse("1", (key, value, context) => context && context.source) === "1" ? 0 : 1)'
}

# The engine's texts, read by all.
read_by_all() {
    readers=0
    by jq "$jq" double read_by_jq
    by Python "$python" exact python3 clients/read.py "$built"/texts/*.json
    by Node "$node" double node clients/read.js number "$built"/texts/*.json
    if has_source; then
        by "Node, reviver with source text" "$node" exact node ${flag:+"$flag"} clients/read.js source "$built"/texts/*.json
    fi
    by "PostgreSQL, jsonb" "$postgresql" exact read_by_postgresql
}

# back NAME VERSION KIND COMMAND..: what this writer sends back goes to a file of its own, after its name, version and kind: `exact`,
# `small` if numbers from 2^53 on become null, `double` if they may be doubles, `odd` if they are odd numbers.
back() {
    writers=$((writers + 1))
    sent=$built/sent-$(printf %02d "$writers")
    printf '%s\t%s\t%s\n' "$1" "$2" "$3" >"$sent"
    shift 3
    "$@" >>"$sent" || echo "failed: $1"
}

# back_by_jq STYLE OPTION..: all texts go to jq at once, each after a byte 1E.
back_by_jq() {
    style=$1
    shift
    for text in "$built"/texts/*.json; do
        printf '\036'
        cat "$text"
        echo
    done | jq --seq "$@" --arg style "$style" -f clients/back.jq
}

# The style is a function of back.sql.
back_by_postgresql() {
    for text in "$built"/texts/*.json; do
        # shellcheck disable=SC2016 # psql's backticks
        printf '\\set text `cat %s`\nselect chr(30) || %s(:'\''text'\'');\n' "$text" "$1"
    done | asked 2>>"$built/psql.log"
}

# What the engine wrote, written back by all.
back_by_all() {
    writers=0
    back "jq, -c" "$jq" double back_by_jq plain -c
    back "jq, ." "$jq" small back_by_jq small
    back "jq, --tab -a" "$jq" small back_by_jq small --tab -a
    back "jq, escaped name" "$jq" small back_by_jq escaped -r
    back jq "$jq" odd jq --seq -n -c --arg style odd -f clients/back.jq
    for style in plain indent raw escaped; do
        back "Python, $style" "$python" exact python3 clients/back.py $style "$built"/texts/*.json
    done
    back Python "$python" odd python3 clients/back.py odd
    back "Node, plain" "$node" double node clients/back.js plain "$built"/texts/*.json
    for style in small tabs; do
        back "Node, $style" "$node" small node clients/back.js $style "$built"/texts/*.json
    done
    ! has_source || back "Node, rawJSON" "$node" exact node ${flag:+"$flag"} clients/back.js source "$built"/texts/*.json
    back Node "$node" odd node clients/back.js odd
    asked -f clients/back.sql 2>>"$built/psql.log"
    for style in plain pretty of_row built kept; do
        back "PostgreSQL, $style" "$postgresql" exact back_by_postgresql $style
    done
    back PostgreSQL "$postgresql" odd asked -c 'select chr(30) || odd from odd()'
}

install_missing
write_texts
start_cluster
jq=$(jq --version | sed 's/^jq-//')
python=$(python3 --version | sed 's/^Python //')
node=$(node --version)
flag=$(node --v8-options | sed -n 's/^ *\(--harmony-json-parse-with-source\) .*/\1/p')
postgresql=$(asked -c 'show server_version' | sed 's/ .*//')
read_by_all
back_by_all
head -3 "$built/psql.log"
wrong=0
python3 -B clients/compare.py "$failed" "$built/want" "$built"/found-* || wrong=1
python3 -B clients/compare_back.py "$built/read" "$built" "$built"/sent-* || wrong=1
exit $wrong
