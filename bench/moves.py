"""The moves (operations 1 to 8) and the eleven-hours recipe in numpy and in numpy.ma, on the bundles and recipes that moves.rs times.
Takes the folder that has them and the number of runs; the names of the cases come on the standard input, a line each.

Timed: one step, or the whole recipe, on ready arrays, each result a new array. Not timed: reading the bundle, and telling from the limits
what is to be copied. Every result is compared with the engine's: in numpy.ma all cells; in numpy, which has no empty cells, those that are
filled. What numpy leaves out:

- numpy has a number in place of an empty cell: the rests of turns that nobody entered are numbers like all others.
- INT overflow is not seen: a difference that doesn't fit wraps silently (the engine refuses it with 12).
- Axes have no names and limits, so a shift and a rename are copies, and nothing is compared before two arrays meet.
"""

import struct
import sys
import time
from functools import partial

import numpy as np

CELL = np.dtype([("filled", "u1"), ("word", "<i8")])
OPERATORS = {2: "subtract", 8: "less"}


def read_bundle(data):
    """The arrays of a bundle by number: the axes' limits, the words, and which cells are empty."""
    assert data[:5] == b"RMA\x01\x00"
    arrays, at = {}, 6
    for number in range(1, data[5] + 1):
        kind, axes = data[at:at + 2]
        assert kind == 1
        limits = [struct.unpack_from("<2i", data, at + 2 + 24 * axis + 8) for axis in range(axes)]
        cells = np.frombuffer(data, CELL, np.prod(shape_of(limits)), at + 2 + 24 * axes).reshape(shape_of(limits))
        arrays[number] = limits, cells["word"].copy(), cells["filled"] == 0
        at += 2 + 24 * axes + cells.nbytes
    assert at == len(data)
    return arrays


def shape_of(limits):
    return [upper - lower + 1 for lower, upper in limits]


def without(limits, axis):
    return limits[:axis] + limits[axis + 1:]


def numbers(step, count):
    """The numbers that a step's detail begins with."""
    return struct.unpack_from(f"<{count}i", step, 4)


def pairs(step, limits):
    found = numbers(step, 2 * len(limits))
    return list(zip(found[::2], found[1::2]))


def part(limits, whole):
    """Where an array of these limits lies in another; what is outside is left out."""
    return tuple(slice(max(lower, low) - low, min(upper, high) - low + 1) for (lower, upper), (low, high) in zip(limits, whole))


def position(step, limits):
    """The axis of a slice or a place, and the index on it."""
    axis = step[3] - 1
    return axis, numbers(step, 1)[0] - limits[axis][0]


def over(at):
    """A copy of A, with B in the place of some of its cells."""
    def work_out(x, y):
        result = x.copy()
        result[at] = y
        return result
    return work_out


# Each operation, given the step, the limits of A and of B, and numpy or numpy.ma: the result's limits, and a function of the arrays.


def trim(step, a, _b, _library):
    limits = pairs(step, a)
    at = part(limits, a)
    return limits, lambda x: x[at].copy()


def slice_off(step, a, _b, _library):
    axis, index = position(step, a)
    at = (slice(None),) * axis + (index,)
    return without(a, axis), lambda x: x[at].copy()


def reshape(step, a, _b, library):
    limits = pairs(step, a)
    shape, to, at = shape_of(limits), part(a, limits), part(limits, a)
    blank = library.masked_all if library is np.ma else library.zeros

    def work_out(x):
        result = blank(shape, np.int64)
        result[to] = x[at]
        return result
    return limits, work_out


def shift(step, a, _b, _library):
    amounts = numbers(step, len(a))
    return [(lower + amount, upper + amount) for (lower, upper), amount in zip(a, amounts)], lambda x: x.copy()


def rename(_step, a, _b, _library):
    return a, lambda x: x.copy()


def update(_step, a, b, _library):
    return a, over(part(b, a))


def place(step, a, b, _library):
    axis, index = position(step, a)
    rest = part(b, without(a, axis))
    return a, over(rest[:axis] + (index,) + rest[axis:])


def glue(step, a, b, library):
    axis = step[3] - 1
    longer = a[axis][0], a[axis][1] + shape_of(b)[axis]
    return a[:axis] + [longer] + a[axis + 1:], lambda x, y: library.concatenate((x, y), axis)


def pair(step, a, _b, library):
    return a, getattr(library, OPERATORS[step[4]])


def right_scalar(step, a, _b, library):
    apply, scalar = getattr(library, OPERATORS[step[4]]), struct.unpack_from("<q", step, 8)[0]
    return a, lambda x: apply(x, scalar)


OPERATIONS = [trim, slice_off, reshape, shift, rename, update, place, glue, pair, right_scalar]


def plan(recipe, arrays, library):
    """The steps: their operands, and a function of them."""
    limits = {number: array[0] for number, array in arrays.items()}
    steps = []
    for number, at in enumerate(range(0, len(recipe), 36), 17):
        step = recipe[at:at + 36]
        limits[number], work_out = OPERATIONS[step[0] - 1](step, limits[step[1]], limits.get(step[2]), library)
        steps.append(([operand for operand in step[1:3] if operand], work_out))
    return steps


def run(values, steps):
    """The last result of a recipe; all are kept, as the engine keeps them."""
    results = dict(values)
    for number, (operands, work_out) in enumerate(steps, 17):
        results[number] = work_out(*[results[operand] for operand in operands])
    return results[number]


def call_of(values, steps):
    """What is timed: the one step, or the recipe."""
    operands, work_out = steps[0]
    return partial(run, values, steps) if len(steps) > 1 else partial(work_out, *[values[operand] for operand in operands])


def compare(name, result, cells):
    """The result has the engine's cells: all of them if it is masked, else those that are filled."""
    filled = cells["filled"] == 1
    assert result.size == cells.size, f"{name}: {result.size} cells"
    if isinstance(result, np.ma.MaskedArray):
        assert (np.ma.getmaskarray(result).ravel() != filled).all(), f"{name}: other cells are empty"
    assert (np.ma.getdata(result).ravel()[filled] == cells["word"][filled]).all(), f"{name}: another result"


def times(call, runs):
    """Microseconds of each run, from the shortest."""
    taken = []
    for _ in range(runs):
        start = time.perf_counter_ns()
        call()
        taken.append((time.perf_counter_ns() - start) / 1000)
    return sorted(taken)


def figures(folder, name, runs):
    """Best and median us of numpy, then of numpy.ma."""
    bundle, recipe, cells = (open(f"{folder}/{name}.{kind}", "rb").read() for kind in ("rma", "bin", "cells"))
    arrays, found = read_bundle(bundle), []
    for library in (np, np.ma):
        ready = {number: np.ma.array(words, mask=empty) if library is np.ma else words for number, (_, words, empty) in arrays.items()}
        call = call_of(ready, plan(recipe, arrays, library))
        compare(name, call(), np.frombuffer(cells, CELL))
        taken = times(call, runs)
        found += [taken[0], taken[runs // 2]]
    return found


def main(folder, runs):
    print(f"numpy {np.__version__}, {runs} runs: one move on ready arrays, and a whole recipe")
    print(f"{'':38} {'numpy':>17} {'numpy.ma':>17}")
    print(f"{'':38} {'best us':>8} {'median':>8} {'best us':>8} {'median':>8}")
    for name in sys.stdin.read().splitlines():
        print(f"{name:38}", *(f"{figure:8.2f}" for figure in figures(folder, name, runs)))


if __name__ == "__main__":
    main(sys.argv[1], int(sys.argv[2]))
