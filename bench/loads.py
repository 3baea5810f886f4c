"""Python's json.loads, timed: `loads.py FILE` prints how many cells the text's `data` has and their sum, then for each number on standard
input calls json.loads so often on the file's bytes, and prints the nanoseconds that it took. bench/json_read.rs runs it in its rounds."""
import json
import sys
import time

with open(sys.argv[1], "rb") as file:
    text = file.read()


def leaves(value):
    if isinstance(value, list):
        for item in value:
            yield from leaves(item)
    else:
        yield value


cells = list(leaves(json.loads(text)["data"]))
print(len(cells), sum(cell for cell in cells if cell is not None), flush=True)
loads, now = json.loads, time.perf_counter_ns
for line in sys.stdin:
    calls = range(int(line))
    start = now()
    for _ in calls:
        loads(text)
    print(now() - start, flush=True)
