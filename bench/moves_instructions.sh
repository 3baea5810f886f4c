#!/bin/sh
# Counts instructions of the moves by valgrind, free of noise, for the engine and for the plain Rust program beside it. Of a move: those
# of one step more (a recipe with the step 13 times, less one with it once, over 12), also for a cell of its result. Of the eleven-hours
# recipe: those of the whole call of rma_run. Ends with 1 if the recipe takes more than recipe_limit, or a move of 64 by 64 more a cell
# than the table allows, and with 2 if it can't count. CASE and RMA_LIB_DIR as for run.sh.
#
# A call's instructions are those of a program that makes it, less those of one that doesn't, so no caller has to be told from another:
# on ARM callgrind loses track of calls.
set -e
here=$(cd "$(dirname "$0")" && pwd)
out=$(dirname "$here")/target/bench
recipe_limit=270000
# Instructions a cell that a move of 64 by 64 may take on x86-64, a tenth over what it takes. Nothing after the bar: no limit.
limits='1 trim, a row and a column|3.5
1 trim, a column|3.5
2 slice, first axis|28
2 slice, last axis|45
3 reshape, a row and a column|6.2
4 shift|2.6
5 rename|2.6
6 update, a quarter|5.7
7 place, a quarter of a row|4.8
7 place, a row|3.4
7 place, a column|6.9
8 glue, first axis|2.9
8 glue, last axis|4.8'
command -v valgrind >/dev/null || { echo "valgrind is missing: apt-get install valgrind" >&2; exit 2; }
MOVES_ONLY=1 BUILD_ONLY=1 "$here/run.sh" || exit 2
cases=$(LIST=1 "$out/moves") || exit 2
[ -n "$cases" ] || { echo "no such case" >&2; exit 2; }

# The limit of a case: the recipe's, that of a move of 64 by 64, which the table must have, or none.
limit_of() {
    case $2 in
    recipe) echo $recipe_limit ;;
    side) echo "$limits" | awk -F'|' -v name="$1" '$1 == name { print $2; found = 1 } END { exit !found }' ;;
    esac
}

# All instructions of a program that makes ready a case and then one of its four calls, or none.
total() {
    CASE=$1 COUNT=$2 LIST= WRITE= valgrind --tool=cachegrind --cache-sim=no --cachegrind-out-file=/dev/null "$out/moves" \
        >"$out/count.log" 2>&1 </dev/null || { tail -5 "$out/count.log" >&2; exit 2; }
    awk '/I +refs:/ { gsub(",", "", $NF); print $NF; found = 1 } END { exit !found }' "$out/count.log"
}

status=0
printf '%-38s %5s %19s %19s\n' '' '' 'one step more' 'a cell'
printf '%-38s %5s %9s %9s %9s %9s\n' instructions cells engine plain engine plain
while IFS='	' read -r name cells kind; do
    limit=$(limit_of "$name" "$kind") || { echo "$name: not in the table of limits" >&2; exit 2; }
    few=once many=often over=12
    [ "$kind" != recipe ] || few=none many=once over=1
    counts=
    for call in engine_$few engine_$many plain_$few plain_$many; do
        count=$(total "$name" $call) || { echo "$name: no count" >&2; exit 2; }
        counts="$counts $count"
    done
    echo "$counts" | awk -v name="$name" -v cells="$cells" -v kind="$kind" -v over=$over -v limit="$limit" '
        { engine = ($2 - $1) / over; plain = ($4 - $3) / over
          much = limit != "" && (kind == "recipe" ? engine : engine / cells) > limit + 0
          printf "%-38s %5d %9.0f %9.0f %9.1f %9.1f%s\n", name, cells, engine, plain, engine / cells, plain / cells,
              much ? "  over " limit : ""
          exit much }' || status=1
done <<END
$cases
END
exit $status
