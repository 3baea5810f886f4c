#!/usr/bin/env python3
"""Brings the repository's own definitions and lemmas to snake case, after port.py: axesOf is axes_of, inside-putIn is inside-put_in.

usage: python3 tools/respell.py        at the top of the repository

It goes by text over crates/ (.antt, .rt, must-fail/*.edit), README.md and docs/. A dash that joins two names stays; types, modules and
facts keep their capital; text in double quotes stays in .antt, .rt and .edit files. In the documents only names that the
crates have, so spelled, are turned. Run twice, it changes nothing the second time.
"""

import os
import re

PART = re.compile(r"(?<![A-Za-z0-9_'])[a-z][a-z0-9_]*[A-Z][A-Za-z0-9_]*")
QUOTED = re.compile(r'("(?:[^"\\\n]|\\.)*")')
WORD = {"getD": "get_or"}  # std's own word has another name
WHOLE = {  # definitions and types whose parts a dash joined
    "fault-of": "fault_of",
    "grown-by": "grown_by",
    "A-value": "AValue",
    "Asked-of": "AskedOf",
}
JOINED = re.compile(r"(?<![\w'-])(?:" + "|".join(map(re.escape, WHOLE)) + r")(?![\w'-])")


def snake(word):
    if word in WORD:
        return WORD[word]
    return re.sub(r"(?<=[a-z0-9A-Z])[A-Z]", lambda m: "_" + m.group(0), word).lower()


def turned(text):
    parts = QUOTED.split(text)
    for i in range(0, len(parts), 2):
        parts[i] = JOINED.sub(lambda m: WHOLE[m.group(0)], PART.sub(lambda m: snake(m.group(0)), parts[i]))
    return "".join(parts)


def rewrite(path, text, new):
    if new != text:
        with open(path, "w", encoding="utf-8") as f:
            f.write(new)


def main():
    has = set()
    for folder, dirs, files in os.walk("crates"):
        dirs[:] = sorted(d for d in dirs if d not in ("out", "data"))
        for f in sorted(files):
            if f.endswith((".antt", ".rt", ".edit")):
                path = os.path.join(folder, f)
                with open(path, encoding="utf-8") as it:
                    text = it.read()
                new = turned(text)
                has.update(re.findall(r"[a-z][a-z0-9_]*", new))
                rewrite(path, text, new)
    pages = ["README.md"] + ["docs/" + f for f in sorted(os.listdir("docs")) if f.endswith(".md")]
    for path in pages:
        with open(path, encoding="utf-8") as it:
            text = it.read()
        new = PART.sub(lambda m: snake(m.group(0)) if snake(m.group(0)) in has else m.group(0), text)
        rewrite(path, text, new)


if __name__ == "__main__":
    main()
