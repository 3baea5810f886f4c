"""Compares what each reader found with what it must find and prints a table: `compare.py FAILED WANT FOUND..`, FAILED being the number of
checks that failed before. All numbers of a reader are exact, or if its kind is `double` all the nearest doubles, or all these with the
fewest digits that tell them. The story that fits best is taken; a cell that it doesn't fit is another difference."""
import re
import sys
from collections import Counter
from decimal import Decimal

from engine import blocks

STORIES = {
    "exact": lambda number: number,
    "nearest double": lambda number: int(float(number)),
    "nearest double, fewest digits": lambda number: int(Decimal(repr(float(number)))),
}


def value(cell):
    """A whole number's value, also where it is printed with an exponent. Any other cell, -0 too, stays text."""
    if re.fullmatch(r"0|-?[1-9]\d*|-?[1-9](\.\d+)?e\+\d+", cell) and Decimal(cell) == int(Decimal(cell)):
        return int(Decimal(cell))
    return cell


def judge(wanted, found, told):
    """Counts cells equal, rounded and other, and tells the others in words. A text of other widths differs in all its cells."""
    count, words = Counter(), []
    for name, (widths, *cells) in wanted.items():
        seen, *seen_cells = found.get(name) or ["nothing"]
        if seen != widths or len(seen_cells) != len(cells):
            count["other"] += len(cells)
            words.append(f"{name}: {widths} with {len(cells)} cells; found: {seen} with {len(seen_cells)}")
            continue
        for i, (cell, seen) in enumerate(zip(map(value, cells), map(value, seen_cells)), 1):
            fits = seen == (told(cell) if isinstance(cell, int) else cell)
            count["other" if not fits else "equal" if seen == cell else "rounded"] += 1
            if not fits:
                words.append(f"{name}: cell {i} is {cell}; found: {seen}")
    return count, words


def main():
    failed, want, *files = sys.argv[1:]
    wanted = blocks(open(want).read().splitlines())
    numbers = [cell for _, *cells in wanted.values() for cell in map(value, cells) if isinstance(cell, int)]
    cells = sum(len(block) - 1 for block in wanted.values())
    print(f"{cells} cells; {len(numbers)} of them are numbers, and {sum(n != int(float(n)) for n in numbers)} of these no double")
    print(f"{'reader':30} {'version':10} {'texts':>5} {'cells':>6} {'equal':>6} {'rounded':>7} {'other':>6}  its numbers")
    wrong, readers = int(failed), set()
    for file in files:
        head, *lines = open(file).read().splitlines()
        reader, version, kind = head.split("\t")
        found = blocks(lines)
        stories = STORIES if kind == "double" else ["exact"]
        story = min(stories, key=lambda name: judge(wanted, found, STORIES[name])[0]["other"])
        count, words = judge(wanted, found, STORIES[story])
        figures = f"{cells:6} {count['equal']:6} {count['rounded']:7} {count['other']:6}"
        print(f"{reader:30} {version:10} {len(found):5} {figures}  {story}")
        print("".join(f"    {line[:130]}\n" for line in words[:3]), end="")
        wrong += count["other"] + (len(found) != len(wanted))
        readers.add(reader.split(",")[0])
    print(f"clients: {len(readers)} readers, {len(wanted)} texts, {wrong} wrong")
    return wrong > 0 or not wanted


sys.exit(main())
