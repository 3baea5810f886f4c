#!/bin/sh
# The five inputs of pair steps, the moves and the eleven-hours recipe in numpy, beside the figures of run.sh: installs python3-numpy from
# Debian's packages (as root) if it is missing, has the inputs written as files, and times the steps. No part of any check. RUNS (300),
# CASE, MOVES_ONLY and RMA_LIB_DIR.
set -e
here=$(cd "$(dirname "$0")" && pwd)
out=$(dirname "$here")/target/bench
python=/usr/bin/python3 # Debian's own, which has Debian's packages
mkdir -p "$out/inputs"
"$python" -c 'import numpy' 2>/dev/null ||
    (apt-get update -q && apt-get install -y --no-install-recommends python3-numpy) >"$out/apt.log" 2>&1 ||
    { tail -5 "$out/apt.log" >&2; exit 2; }
if [ -z "$MOVES_ONLY" ]; then
    PAGE_ONLY=1 BUILD_ONLY=1 "$here/run.sh"
    WRITE=$out/inputs "$out/bench"
    "$python" "$here/pairs.py" "$out/inputs" "${RUNS:-300}"
fi
PAGE_ONLY= JSON_ONLY= MOVES_ONLY=1 BUILD_ONLY=1 "$here/run.sh"
WRITE=$out/inputs "$out/moves"
LIST=1 "$out/moves" | cut -f1 | "$python" "$here/moves.py" "$out/inputs" "${RUNS:-300}"
