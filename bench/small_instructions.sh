#!/bin/sh
# Counts instructions of small calls by valgrind, free of noise, in both versions of the bundle: those of 1,100 calls less those of 100, over
# 1,000. Two arrays of 2 by 2 cells; one pair step, or sixteen where the name says so. Ends with 1 if a call of version 1 takes more than
# the table allows, 5 in a hundred over what it took when there was no version 2, and with 2 if it can't count. RMA_LIB_DIR as for run.sh.
set -e
here=$(cd "$(dirname "$0")" && pwd)
root=$(dirname "$here")
out=$root/target/bench
limits='read 1672
refer 1904
plan 6606
run 7542
plan16 20518
page16 25485'
command -v valgrind >/dev/null || { echo "valgrind is missing: apt-get install valgrind" >&2; exit 2; }
mkdir -p "$out"
[ -n "$RMA_LIB_DIR" ] || (cd "$root" && tools/staticlib.sh >"$out/staticlib.log" 2>&1) || { tail -5 "$out/staticlib.log"; exit 2; }
rustc --edition 2021 -O -C codegen-units=1 "$here/small.rs" -o "$out/small" -C link-arg="${RMA_LIB_DIR:-$root/target/staticlib}/librma.a"

# All instructions of a program that makes a call so many times.
total() {
    valgrind --tool=cachegrind --cache-sim=no --cachegrind-out-file=/dev/null "$out/small" "$@" >"$out/small.log" 2>&1 </dev/null ||
        { tail -5 "$out/small.log" >&2; exit 2; }
    awk '/I +refs:/ { gsub(",", "", $NF); print $NF; found = 1 } END { exit !found }' "$out/small.log"
}

# Those of one call.
each() {
    few=$(total "$1" "$2" 100) || exit 2
    many=$(total "$1" "$2" 1100) || exit 2
    echo $(((many - few) / 1000))
}

status=0
printf '%-8s %10s %10s %10s\n' call 'version 1' limit 'version 2'
while read -r call limit; do
    one=$(each "$call" 1) || exit 2
    two=$(each "$call" 2) || exit 2
    over=
    [ "$one" -le "$limit" ] || { over='  over'; status=1; }
    printf '%-8s %10d %10d %10d%s\n' "$call" "$one" "$limit" "$two" "$over"
done <<END
$limits
END
exit $status
