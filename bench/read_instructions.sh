#!/bin/sh
# Counts instructions of reading JSON by cachegrind, free of noise, for each input of json_read.rs: those of 22 calls less those of 2, over
# 20, of the engine, of plain Rust (g), and of (h), which reads apart and copies. Prints them a call, and the engine's for a byte of text.
# Ends with 1 if the engine takes more than the table allows, a tenth over what it took, and with 2 if it can't count. CASE and RMA_LIB_DIR
# as for run.sh.
set -e
here=$(cd "$(dirname "$0")" && pwd)
out=$(dirname "$here")/target/bench
limits='INT, full range	3370000
INT, 0 to 99	1780000
INT, minutes of a roster, 1 in 16 empty	1930000
INT, 1 to 19 digits, both signs	2570000
BOOLEAN, 1 in 16 empty	1660000
INT on six axes, the longest text	13900000
INT indented by two, 0 to 99	2040000
one cell behind 600 records	3120000
one cell alone	42500
INT, 2 by 2 among other members	48600'
command -v valgrind >/dev/null || { echo "valgrind is missing: apt-get install valgrind" >&2; exit 2; }
READ_ONLY=1 BUILD_ONLY=1 "$here/run.sh" || exit 2

# All instructions of so many calls of a contestant.
total() {
    CASE=$1 ONLY=$2 CALLS=$3 valgrind --tool=cachegrind --cache-sim=no --cachegrind-out-file=/dev/null "$out/json_read" \
        >"$out/calls.log" 2>&1 </dev/null || { tail -5 "$out/calls.log" >&2; exit 2; }
    awk '/I +refs:/ { gsub(",", "", $NF); print $NF; found = 1 } END { exit !found }' "$out/calls.log"
}

# Those of one call.
each() {
    few=$(total "$1" "$2" 2) || exit 2
    many=$(total "$1" "$2" 22) || exit 2
    echo $(((many - few) / 20))
}

status=0
printf '%-41s %9s %9s %9s %9s %10s\n' 'instructions a call' engine limit '(g)' '(h)' 'for a byte'
LIST=1 "$out/json_read" >"$out/inputs"
while IFS='	' read -r label _ bytes; do
    engine=$(each "$label" engine) || exit 2
    g=$(each "$label" 'rust (g)') || exit 2
    h=$(each "$label" 'rust (h)') || exit 2
    limit=$(echo "$limits" | awk -F '	' -v label="$label" '$1 == label { print $2 }')
    over=
    [ "$engine" -le "${limit:-$engine}" ] || { over='  over'; status=1; }
    perbyte=$(awk -v n="$engine" -v bytes="$bytes" 'BEGIN { printf "%.1f", n / bytes }')
    printf '%-41s %9d %9s %9d %9d %10s%s\n' "$label" "$engine" "${limit:--}" "$g" "$h" "$perbyte" "$over"
done <"$out/inputs"
exit $status
