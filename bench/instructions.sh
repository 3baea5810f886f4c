#!/bin/sh
# Counts instructions by callgrind, free of noise: one page call of the engine, of (a2) and of (b), for each input and page, after a
# first call that makes their vectors. Prints them for a cell-step: 64 by 64 cells, 16 steps, 65,536. Ends with 1 if the engine takes
# over 25.0 on one of the five inputs of pair steps with the page of 2,000 rows, and with 2 if it can't count. CASE, PAGE, OPS and
# RMA_LIB_DIR as for run.sh.
set -e
here=$(cd "$(dirname "$0")" && pwd)
out=$(dirname "$here")/target/bench
limit=25.0
command -v valgrind >/dev/null || { echo "valgrind is missing: apt-get install valgrind" >&2; exit 2; }
PAGE_ONLY=1 BUILD_ONLY=1 "$here/run.sh" || exit 2
inputs=$(LIST=1 "$out/bench")
[ -n "$inputs" ] || { echo "no such input" >&2; exit 2; }

# From callgrind's lines of functions, each with all that it calls, the three counts.
counts() {
    callgrind_annotate --inclusive=yes --threshold=100 "$out/calls" | awk '
        { count = $1; gsub(",", "", count) }
        /:rma_page( |$)/ { engine = count }
        /::by_a2( |$)/ { a2 = count }
        /::by_b( |$)/ { b = count }
        END { if (engine && a2 && b) print engine, a2, b }'
}

status=0
printf '%-41s %5s %8s %8s %8s\n' 'instructions a cell-step' page engine '(a2)' '(b)'
while IFS='	' read -r label page asked; do
    CASE=$label PAGE=$page ONLY= valgrind --tool=callgrind --toggle-collect='*time_rounds*' --callgrind-out-file="$out/calls" \
        "$out/bench" 1 1 >"$out/calls.log" 2>&1 </dev/null || { tail -5 "$out/calls.log" >&2; exit 2; }
    three=$(counts)
    [ -n "$three" ] || { echo "$label: no counts in $out/calls" >&2; exit 2; }
    echo "$three" | awk -v label="$label" -v page="$page" -v asked="$asked" -v limit=$limit '
        { over = asked == "asked" && page == 2000 && $1 / 65536 > limit
          printf "%-41s %5d %8.1f %8.1f %8.1f%s\n", label, page, $1 / 65536, $2 / 65536, $3 / 65536, over ? "  over " limit : ""
          exit over }' || status=1
done <<END
$inputs
END
exit $status
