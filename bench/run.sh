#!/bin/sh
# Proves and builds the engine's archive, links it with the drivers, and times the page call, the writing and reading of JSON, the small
# calls, the judging of a bundle, the moves and, unless some inputs were chosen, two hundred recipes in a row, beside plain Rust programs,
# a memcpy and Python. ROUNDS (60), REPS (10), CASE, PAGE, ONLY, OPS, TABLE, PAGE_ONLY, JSON_ONLY, READ_ONLY, MOVES_ONLY, BUILD_ONLY and
# RMA_LIB_DIR are explained in README.md.
set -e
here=$(cd "$(dirname "$0")" && pwd)
root=$(dirname "$here")
out=$root/target/bench
mkdir -p "$out"
[ -n "$RMA_LIB_DIR" ] || (cd "$root" && tools/staticlib.sh >"$out/staticlib.log" 2>&1) || { tail -5 "$out/staticlib.log"; exit 1; }
drivers="bench json json_read calls reads moves"
[ -z "$PAGE_ONLY" ] || drivers=bench
[ -n "$CASE$PAGE$ONLY$OPS" ] || drivers="$drivers saturday"
[ -z "$JSON_ONLY" ] || drivers="json json_read"
[ -z "$READ_ONLY" ] || drivers=json_read
[ -z "$MOVES_ONLY" ] || drivers=moves
for driver in $drivers; do
    rustc --edition 2021 -O -C codegen-units=1 "$here/$driver.rs" -o "$out/$driver" \
        -C link-arg="${RMA_LIB_DIR:-$root/target/staticlib}/librma.a"
done
[ -n "$BUILD_ONLY" ] || for driver in $drivers; do "$out/$driver" "${ROUNDS:-60}" "${REPS:-10}"; done
