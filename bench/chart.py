#!/usr/bin/env python3
"""Draws the engine's time as a multiple of plain Rust's (b), for each input and page, from the table that `TABLE=FILE bench/run.sh` writes.

    bench/chart.py TABLE docs/speed.svg

A table may hold several runs: then the best time of all, the median of their medians, and the widest spread are drawn.
"""

import sys
from statistics import median
from xml.sax.saxutils import escape

WIDTH, LEFT, RIGHT = 1000, 318, 750  # the plot's sides
RATIO, ENGINE, PLAIN = RIGHT + 62, RIGHT + 132, RIGHT + 222  # where the columns of figures end
TOP, GROUP, BAR = 134, 50, 15  # where the plot begins, and how high an input and a bar are
LEAST, MOST = 2.4, 3.0  # the axis ends between these; a longer bar is cut there
INK, PALE, PAPER = "#222222", "#666666", "#fcfcfa"
PAGES = {"2000": ("#1f5a94", "page of 2,000 rows, which fills"), "4096": ("#86b3dc", "page with room for all 4,096 rows")}
LINES = [(1.0, "#444444", "none", "end", "1.0: plain Rust"), (1.2, "#2e7d32", "6 4", "start", "1.2: goal"),
         (2.0, "#b3261e", "6 4", "start", "2.0: asked")]


def read(file):
    """By input and page: the engine's best and (b)'s in us, and the ratio's median, 10% and 90%. Inputs in the table's order."""
    lines = {}
    for line in open(file, encoding="utf-8"):
        label, page, who, best, _, *ratio = line.rstrip("\n").split("\t")
        lines.setdefault((label, page), {}).setdefault(who, []).append([float(best), *map(float, ratio)])
    found = {}
    for (label, page), times in lines.items():
        if page in PAGES and "engine" in times and "rust (b)" in times:
            engine = list(zip(*times["engine"]))
            plain = min(run[0] for run in times["rust (b)"])
            figures = min(engine[0]), plain, median(engine[1]), min(engine[2]), max(engine[3])
            found.setdefault(label, {})[page] = figures
    return found


def text(x, y, words, size=13, anchor="start", fill=INK, weight="normal"):
    return (f'<text x="{x:.1f}" y="{y:.1f}" font-size="{size}" text-anchor="{anchor}" fill="{fill}" font-weight="{weight}">'
            f"{escape(words)}</text>")


def line(x1, y1, x2, y2, stroke, width=1.0, dashes="none"):
    ends = f'x1="{x1:.1f}" y1="{y1:.1f}" x2="{x2:.1f}" y2="{y2:.1f}"'
    return f'<line {ends} stroke="{stroke}" stroke-width="{width}" stroke-dasharray="{dashes}"/>'


def box(x, y, width, height, fill):
    return f'<rect x="{x:.1f}" y="{y:.1f}" width="{width:.1f}" height="{height:.1f}" fill="{fill}"/>'


def bar(at, y, page, figures, end):
    """A bar with its spread, cut by a slash where the axis ends, and its figures."""
    engine, plain, ratio, low, high = figures
    middle, tip = y + BAR / 2, at(min(ratio, end))
    drawn = [box(LEFT, y, tip - LEFT, BAR - 2, PAGES[page][0])]
    if ratio > end:
        drawn.append(line(tip - 16, y + BAR, tip - 8, y - 2, PAPER, 4))
    else:
        low, high = at(min(low, end)), at(min(high, end))
        drawn.append(line(low, middle - 1, high, middle - 1, INK, 1.2))
        drawn += [line(x, middle - 4, x, middle + 2, INK, 1.2) for x in (low, high)]
    drawn.append(text(RATIO, middle + 3, f"{ratio:.2f}", 12, "end", weight="bold"))
    drawn.append(text(ENGINE, middle + 3, f"{engine:.0f}", 12, "end") + text(PLAIN, middle + 3, f"{plain:.0f}", 12, "end", PALE))
    return drawn


def front():
    """Title, legend, and the heads of the columns of figures."""
    subtitle = "A roster of 64 by 64 turns, 16 steps. Bars show the engine's time as a multiple of plain Rust's: shorter is faster."
    drawn = [text(24, 34, "How long a page call takes: the engine beside plain Rust", 20, weight="bold"), text(24, 57, subtitle)]
    x = LEFT
    for colour, words in PAGES.values():
        drawn += [box(x, 73, 22, 13, colour), text(x + 29, 84, words)]
        x += 245
    drawn += [text(RATIO, TOP - 10, "times", 12, "end", weight="bold"), text(PLAIN, TOP - 26, "best, microseconds", 12, "end", PALE)]
    return drawn + [text(ENGINE, TOP - 10, "engine", 12, "end"), text(PLAIN, TOP - 10, "plain Rust", 12, "end", PALE)]


def ground(at, labels, bottom):
    """Behind the bars: the inputs' names, every second one shaded, and the lines that bars are held against."""
    drawn = []
    for number, label in enumerate(labels):
        y = TOP + GROUP * number
        drawn += [box(16, y, WIDTH - 32, GROUP, "#f1f2ee")] if number % 2 == 0 else []
        drawn.append(text(LEFT - 12, y + GROUP / 2 + 4, label, 13, "end"))
    for ratio, colour, dashes, anchor, words in LINES:
        drawn.append(line(at(ratio), TOP - 20, at(ratio), bottom, colour, 1.5, dashes))
        drawn.append(text(at(ratio) + (5 if anchor == "start" else -5), TOP - 10, words, 12, anchor, colour))
    return drawn


def axis(at, end, bottom):
    drawn = [line(LEFT, TOP, LEFT, bottom, INK), line(LEFT, bottom, RIGHT, bottom, INK)]
    for tenths in range(0, int(end * 10) + 1, 5):
        x = at(tenths / 10)
        drawn += [line(x, bottom, x, bottom + 5, INK), text(x, bottom + 20, f"{tenths / 10:.1f}", 12, "middle")]
    middle = (LEFT + RIGHT) / 2
    drawn.append(text(middle, bottom + 42, "engine's time / plain Rust's time, baseline (b)", 13, "middle"))
    return drawn + [text(middle, bottom + 60, "median of the rounds, with 10% to 90% of them", 12, "middle", PALE)]


def chart(found):
    """The picture's text."""
    greatest = max(figures[2] for pages in found.values() for figures in pages.values())
    end = min(MOST, max(LEAST, greatest + 0.3))
    bottom = TOP + GROUP * len(found)

    def at(ratio):
        return LEFT + (RIGHT - LEFT) * ratio / end
    drawn = front() + ground(at, found, bottom)
    for number, pages in enumerate(found.values()):
        y = TOP + GROUP * number + (GROUP - (BAR + 2) * len(pages)) / 2
        for page in sorted(pages):
            drawn += bar(at, y, page, pages[page], end)
            y += BAR + 2
    drawn += axis(at, end, bottom)
    size = f'width="{WIDTH}" height="{bottom + 76}" viewBox="0 0 {WIDTH} {bottom + 76}"'
    fonts = 'font-family="DejaVu Sans, Verdana, Helvetica, Arial, sans-serif"'
    background = box(0, 0, WIDTH, bottom + 76, PAPER)
    return "\n".join([f'<svg xmlns="http://www.w3.org/2000/svg" {size} {fonts}>', background, *drawn, "</svg>", ""])


def main(table, picture):
    found = read(table)
    if not found:
        sys.exit(f"{table}: no times of the engine and of (b)")
    with open(picture, "w", encoding="utf-8") as file:
        file.write(chart(found))


if __name__ == "__main__":
    main(*sys.argv[1:3])
