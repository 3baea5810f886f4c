#!/bin/sh
# Builds c/example.c against the engine's library, runs it and compares what it prints with what it must print: on the three examples,
# what the program `rests` prints of them. Then the same under valgrind, where that is installed. RMA_LIB names an archive to link;
# without it the library is proved and built first. Everything that is built goes to target/. Exits with 0 when nothing differs.
set -eu
cd "$(dirname "$0")/.."
if [ -z "${RMA_LIB:-}" ]; then
    tools/staticlib.sh
    RMA_LIB=target/staticlib/librma.a
fi
built=target/c
mkdir -p "$built"
"${CC:-cc}" -std=c99 -Wall -Wextra -Wpedantic -Werror -O2 -I include c/example.c "$RMA_LIB" -o "$built/example"
cat >"$built/asked" <<'END'
packed: 214 bytes, 2 arrays
start of person 2, turn 1: 360
walked: 1320 2760 4200 360 1200 3240
last end: 4680
starts: {"data":[[1320,2760,4200],[360,1200,3240]]}
read: 6 cells, the last 3240
refused 16 at byte 20
packed in version 2: 236 bytes
found 1
3 1 1 1 2 1 1
branch depot line person_on_call week turn
END

# prints FILE COMMAND..: the command must print the file, byte for byte, and exit with 0.
prints() {
    file=$1
    shift
    "$@" >"$built/printed" || { echo "failed: $*"; exit 1; }
    diff "$file" "$built/printed" || { echo "differs: $*"; exit 1; }
    echo "ok: $*"
}

# four BEFORE..: the four runs, each after the words BEFORE: none, or valgrind's.
four() {
    prints crates/rests/stdout "$@" "$built/example" example
    prints example/no-shift/stdout "$@" "$built/example" example/no-shift
    prints crates/rests/stdout "$@" "$built/example" example/version-2
    prints "$built/asked" "$@" "$built/example"
}

four
if command -v valgrind >/dev/null; then
    four valgrind --error-exitcode=1 --leak-check=full --errors-for-leak-kinds=all -q
else
    echo "valgrind is not installed: not run under it"
fi
