#!/usr/bin/env python3
"""Writes paper 01's example, "Eleven hours, whole": roster.rma and recipe.bin for the program `rests` (its data/, which this folder shows),
in no-shift/ the recipe that forgot the shift, and in version-2/ the same roster and recipe in version 2 of the bundle, with names of 14 and 16
letters. Run it in this folder; it takes no argument."""
import struct

STAR = (-1000000, 1000000)
INT, TRIM, SHIFT, PAIR, RIGHT_SCALAR, LESS, MINUS = 1, 1, 4, 9, 10, 8, 2
STARTS, ENDS, STEP = 1, 2, 16  # step k is operand STEP + k
NAME, DETAIL = {1: 8, 2: 16}, {1: 32, 2: 96}  # bytes, by version


def axis(version, name, lower, upper):
    return struct.pack("<%ds4i" % NAME[version], name, lower, upper, *STAR)


def array(version, who, turn, cells):
    head = bytes([INT, 2]) + axis(version, who, 1, 2) + axis(version, turn, 1, 3)
    return head + b"".join(struct.pack("<Bq", 1, c) for c in cells)


def roster(version, who, turn):
    starts = array(version, who, turn, [1320, 2760, 4200, 360, 1200, 3240])
    ends = array(version, who, turn, [1800, 3240, 4680, 840, 1680, 3720])
    return b"RMA" + struct.pack("<HB", version, 2) + starts + ends


def step(version, operation, a, b, detail):
    return (bytes([operation, a, b, 0]) + detail).ljust(4 + DETAIL[version], b"\0")


def numbers(*ns):
    return struct.pack("<%di" % len(ns), *ns)


def rests_below_660(version, starts, ends, rests):
    less_than_660 = struct.pack("<B3xq", LESS, 660)
    return step(version, PAIR, starts, ends, bytes([MINUS])) + step(version, RIGHT_SCALAR, rests, 0, less_than_660)


def recipe(version, with_shift):
    next_starts = step(version, TRIM, STARTS, 0, numbers(1, 2, 2, 3))
    moved = step(version, SHIFT, STEP + 1, 0, numbers(0, -1)) if with_shift else b""
    ends = step(version, TRIM, ENDS, 0, numbers(1, 2, 1, 2))
    last = STEP + (2 if with_shift else 1)  # the step whose starts the ends are taken from
    return next_starts + moved + ends + rests_below_660(version, last, last + 1, last + 2)


FILES = {
    "../crates/rests/data/roster.rma": roster(1, b"who", b"turn"),
    "../crates/rests/data/recipe.bin": recipe(1, True),
    "no-shift/recipe.bin": recipe(1, False),
    "version-2/roster.rma": roster(2, b"person_on_call", b"turn_of_the_week"),
    "version-2/recipe.bin": recipe(2, True),
}
for path, content in FILES.items():
    with open(path, "wb") as file:
        file.write(content)
