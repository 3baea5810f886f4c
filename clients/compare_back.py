"""Has the engine read what other programs wrote back, and compares the cells with what was meant: `compare_back.py READ FOLDER SENT..`,
READ being the program that read.c makes, FOLDER with `want` and `types` as write.c leaves them. A SENT file begins with a line of writer,
version and kind, and has a text after each byte 1E. What a writer really printed is found by the tokens of its text, and the engine must
read that; what it printed must be what was meant, by its kind:
exact: every number; small: those from 2^53 on as null; double: the nearest doubles, in any digits; odd: no array of FOLDER's, see ODD."""
import sys
from collections import Counter
from decimal import Decimal
from pathlib import Path

from engine import INT, Data, ask, blocks, fitted, refused

# What the writers print for odd numbers between 1 and 3, in their own order, and what the engine says: the middle cell, or the refusal.
ODD = {
    "jq": ["5 5", "-0 0", "1e+18 16", "1e+17 16", "null null", "1.7976931348623157e+308 16", '"7" 16'],
    "Python": ["5.0 16", "-0.0 16", "1e+18 16", "1000000000000000000 1000000000000000000", "9223372036854775808 16", "NaN 15", '"7" 16'],
    "Node": ["5 5", "0 0", "1000000000000000000 1000000000000000000", "1e+21 16", "9223372036854776000 16", "null null", '"7" 16',
             "null null"],
    "PostgreSQL": ["5.0 16", "-0 0", "1e+18 16", "1000000000000000000 1000000000000000000", "9223372036854775808 16", '"NaN" 16',
                   '"7" 16'],
}


WORDS = ("null", "true", "false")


def meant(kind, cell, token):
    """Whether a value is the cell that was meant: `equal`, `rounded` or `other`."""
    if kind == "small" and cell not in WORDS and abs(int(cell)) >= 2**53:
        cell = "null"
    if token == cell:
        return "equal"
    if kind != "double" or cell in WORDS or token in WORDS or float(token) != float(cell):
        return "other"
    return "equal" if Decimal(token) == int(cell) else "rounded"


def spoiled(data, widths):
    """A text changed on purpose, in each way with what the engine must say of it."""
    numbers = [i for i, (_, token) in enumerate(data.leaves) if fitted(token) not in (None, "null")]
    (first, token), (last, end) = data.leaves[numbers[0]], data.leaves[-1]
    whole = data.due(widths)
    other = str(int(token) // 2 + 1)
    whole[numbers[0] + 1] = other
    brace = data.text.rindex(b"}")
    yield "another number", data.changed(first, token, other), whole
    yield "a fraction", data.changed(first, token, token + ".0"), refused(16, first)
    yield "a truth value", data.changed(first, token, "true"), refused(16, first)
    yield "a word cut", data.changed(first, token, "nul"), refused(15, first + 3)
    yield "one value more", data.changed(last, end, end + ",7"), refused(16, last + len(end) + 1)
    yield "a comma more", data.changed(last, end, end + ",,7"), refused(15, last + len(end) + 1)
    yield "another bracket", data.changed(data.closing, "]", "}"), refused(15, data.closing)
    yield "a second data", data.text[:brace] + b',"data":0}', refused(15, brace + 2)
    yield "a level too many", data.text[:brace] + b',"":' + 16 * b"[" + 16 * b"]" + b"}", refused(15, brace + 4 + 16)
    yield "a letter cut", data.text[:brace] + b',"":"\xe2\x82"}', refused(15, brace + 4 + 4)
    yield "no end", data.text[:brace], refused(15, brace + 1)


def judge(read, wanted, types, kind, texts):
    """Counts of a writer's texts and cells, and what is wrong in words. `refused`: texts with a value that is no cell; `unseen`: texts
    that the engine reads though a number was rounded."""
    count, words = Counter(texts=len(texts)), []
    names = list(wanted)
    if len(texts) != len(names):
        return count, [f"{len(texts)} texts in place of {len(names)}"]
    found = [Data(text) for text in texts]
    widths = [wanted[name][0].split() for name in names]
    answers, failed = ask(read, list(zip((types[name] for name in names), widths, texts)))
    words += [f"{failed} checks of read.c"] * (failed > 0)
    for name, wide, data, answer in zip(names, widths, found, answers):
        cells, tokens = wanted[name][1:], [token for _, token in data.leaves]
        due, seen = data.due(wide), Counter(meant(kind, cell, token) for cell, token in zip(cells, tokens))
        count["refused"] += due[0].startswith("refused")
        count["unseen"] += seen["rounded"] > 0 and not due[0].startswith("refused")
        count.update(seen)
        if answer != due or len(tokens) != len(cells):
            words.append(f"{name}: {len(tokens)} values for {len(cells)} cells; {told(answer, due)}")
    words += [f"{count['other']} values are not what was meant"] * (count["other"] > 0)
    words += [f"{count['refused']} texts are no array"] * (kind != "double" and count["refused"] > 0)
    return count, words


def told(answer, due):
    """Where an answer first differs from what is due."""
    at = next((i for i, (seen, line) in enumerate(zip(answer, due)) if seen != line), min(len(answer), len(due)))
    return f"line {at}: {answer[at:at + 1]}, due {due[at:at + 1]}"


def spoil(read, wanted, types, kind, texts):
    """Changes a text of a writer on purpose: the engine must refuse it, or read the other number, and then the comparison must see it."""
    name, data = next(
        (name, Data(text))
        for name, text in zip(wanted, texts)
        if types[name] == INT and len(wanted[name]) > 4 and not Data(text).due([])[0].startswith("refused")
        and any(fitted(token) != "null" for _, token in Data(text).leaves)
    )
    widths = wanted[name][0].split()
    cases = list(spoiled(data, widths))
    answers, failed = ask(read, [(INT, widths, text) for _, text, _ in cases])
    words = [f"spoiled, {what}: {told(answer, due)}" for (what, _, due), answer in zip(cases, answers) if answer != due]
    count, _ = judge(read, {name: wanted[name]}, types, kind, [cases[0][1]])
    if count["other"] != 1:
        words.append("spoiled, another number: the comparison doesn't see it")
    return len(cases), words + [f"{failed} checks of read.c"] * (failed > 0)


def judge_odd(read, writer, texts):
    """What a writer makes of odd numbers, each as the middle of three cells, and what the engine says of it."""
    answers, failed = ask(read, [(INT, [3], text) for text in texts])
    words = [f"{failed} checks of read.c"] * (failed > 0)
    seen = []
    for text, answer in zip(texts, answers):
        at, token = Data(text).leaves[1]
        said = answer[2] if answer[0] == "3" else answer[0].split()[1]
        seen.append(f"{token} {said}")
        if answer[0] != "3" and answer not in (refused(16, at), refused(15, at)):
            words.append(f"odd: {answer[0]} for {token} at byte {at}")
    if seen != ODD[writer]:
        words.append(f"odd: {seen}")
    return seen, words


def main():
    read, folder, *files = sys.argv[1:]
    wanted = blocks((Path(folder) / "want").read_text().splitlines())
    types = {name: int(of) for name, of in map(str.split, (Path(folder) / "types").read_text().splitlines())}
    cells = sum(len(block) - 1 for block in wanted.values())
    wrong, writers, total, changed, odd = 0, set(), 0, 0, []
    columns = f"{'cells':>6} {'equal':>6} {'rounded':>7} {'refused':>7} {'unseen':>6} {'wrong':>5}"
    print(f"{'writer':24} {'version':10} {'texts':>5} {'bytes':>9} {columns}")
    for file in files:
        head, *texts = Path(file).read_bytes().split(b"\x1e")
        writer, version, kind = head.decode().rstrip("\n").split("\t")
        writers.add(writer.split(",")[0])
        if kind == "odd":
            seen, words = judge_odd(read, writer, texts)
            odd.append(f"{writer}: " + "; ".join(seen))
        else:
            count, words = judge(read, wanted, types, kind, texts)
            some, more = spoil(read, wanted, types, kind, texts)
            words, total, changed = words + more, total + count["texts"], changed + some
            figures = f"{cells:6} {count['equal']:6} {count['rounded']:7} {count['refused']:7} {count['unseen']:6} {len(words):5}"
            print(f"{writer:24} {version:10} {len(texts):5} {sum(map(len, texts)):9} {figures}")
        print("".join(f"    {line[:130]}\n" for line in words[:4]), end="")
        wrong += len(words)
    print("odd numbers, as written, and the cell or refusal:", *odd, sep="\n    ")
    print(f"clients: {len(writers)} writers, {total} texts read back, {changed} changed on purpose, {wrong} wrong")
    return wrong > 0 or total == 0


sys.exit(main())
