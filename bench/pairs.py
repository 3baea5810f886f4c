"""The five inputs of pair steps in numpy: plain arrays where no cell is empty, masked arrays (numpy.ma) where some are.

Timed: the 16 steps on ready arrays, and np.nonzero of the last, which is the listing. Not timed: reading the bundle. The rows are
compared with those that the engine and the baselines list, so the values are the same on these inputs. What numpy leaves out:

- INT overflow is not seen: a sum, difference or product that doesn't fit wraps silently (the engine refuses it with 12).
- INT division by zero gives 0 and FLOAT gives an infinity or NaN, with a warning at most; numpy.ma masks the cell (the engine: 13).
- numpy.ma's AND and OR are masked where either side is; FALSE AND unknown is FALSE in the engine. Here both sides are masked alike.
- No limits and names of axes are compared, and no cell is judged.

Its // goes down and its % has the divisor's sign; the requirements divide toward zero and MOD has the dividend's sign. So MOD is
np.fmod, and division takes the remainder off first, which makes it exact.
"""

import os
import sys
import time

import numpy as np

INPUTS = ["mixed INT, 1 in 16 empty", "mixed INT, none empty", "sums and comparisons INT, 1 in 16 empty",
          "sums and comparisons INT, none empty", "FLOAT, 1 in 16 empty"]
SIDE = 64
CELL = np.dtype([("filled", "u1"), ("word", "<i8")])
AXES = 2 * 24


def operators(library, kind):
    """The pair operators by number, of numpy or numpy.ma."""
    def divided(x, y):
        return library.floor_divide(library.subtract(x, library.fmod(x, y)), y)
    names = ["add", "subtract", "multiply", None, "fmod", "equal", "not_equal", "less", "less_equal", "greater", "greater_equal",
             "logical_and", "logical_or"]
    by_number = {number: getattr(library, name) for number, name in enumerate(names, 1) if name}
    by_number[4] = divided if kind == 1 else library.true_divide
    return by_number


def read_bundle(data):
    """The two arrays of a bundle and their type: masked where a cell is empty, else plain."""
    assert data[:6] == b"RMA\x01\x00\x02"
    arrays, at = [], 6
    for _ in range(2):
        kind = data[at]
        at += 2 + AXES
        cells = np.frombuffer(data, CELL, SIDE * SIDE, at).reshape(SIDE, SIDE)
        at += cells.nbytes
        values = cells["word"].copy() if kind == 1 else cells["word"].copy().view("<f8")
        empty = cells["filled"] == 0
        arrays.append(np.ma.array(values, mask=empty) if empty.any() else values)
    assert at == len(data)
    return kind, arrays


def read_recipe(data):
    """The steps as A, operator, B; all of operation 9."""
    steps = [data[at:at + 36] for at in range(0, len(data), 36)]
    assert all(step[0] == 9 for step in steps)
    return [(step[1], step[4], step[2]) for step in steps]


def page(arrays, steps, apply):
    """The steps worked out, and the places of the last result's TRUE cells."""
    results = {number: array for number, array in enumerate(arrays, 1)}
    for number, (a, operator, b) in enumerate(steps, 17):
        results[number] = apply[operator](results[a], results[b])
    last = results[number]
    return np.nonzero(last.filled(False) if isinstance(last, np.ma.MaskedArray) else last)


def rows_of(places):
    """The rows' bytes: ordinality and both coordinates, from 1."""
    who, turn = places
    return np.stack([who * SIDE + turn + 1, who + 1, turn + 1], axis=1).astype("<u4").tobytes()


def times(arrays, steps, apply, runs):
    """Microseconds of each run, from the shortest."""
    taken = []
    for _ in range(runs):
        start = time.perf_counter_ns()
        page(arrays, steps, apply)
        taken.append((time.perf_counter_ns() - start) / 1000)
    return sorted(taken)


def main(folder, runs):
    wanted = os.environ.get("CASE", "")
    print(f"numpy {np.__version__}, {runs} runs: 16 steps on ready arrays of {SIDE} by {SIDE}, and the listing")
    print(f"{'':41} {'arrays':8} {'best us':>8} {'median':>8}")
    for label in filter(lambda label: label.startswith(wanted), INPUTS):
        bundle, recipe, rows = (open(f"{folder}/{label}.{kind}", "rb").read() for kind in ("rma", "bin", "rows"))
        kind, arrays = read_bundle(bundle)
        masked = isinstance(arrays[0], np.ma.MaskedArray)
        steps, apply = read_recipe(recipe), operators(np.ma if masked else np, kind)
        assert rows_of(page(arrays, steps, apply)) == rows, f"{label}: other rows"
        taken = times(arrays, steps, apply, runs)
        print(f"{label:41} {'masked' if masked else 'plain':8} {taken[0]:8.1f} {taken[runs // 2]:8.1f}")


if __name__ == "__main__":
    main(sys.argv[1], int(sys.argv[2]))
