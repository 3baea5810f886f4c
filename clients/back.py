"""Writes arrays back with Python's json: `back.py STYLE FILE..` reads each text and prints it again, after a byte 1E, alone or among other
members. Styles: plain (compact), indent (two spaces, all in ASCII), raw (tabs, names sorted, UTF-8), escaped (spaces after commas and
colons, the name `data` told by escapes), odd (what else Python may put where a number is due)."""
import json
import sys

DEEP = 0
for _ in range(15):
    DEEP = [DEEP]
BEFORE = {
    "note": 'a "quoted" word, a \\ and a / \b\f\n\r\t\x00\x01\x1f\x7f',
    "größe": "naïve €, 日本, \U0001f600, \u2028",
    "half": "\ud83d",
    "nested": {"data": [9, 9], "a": {"b": [[], {}, [{"data": None}]]}},
    "Data": [1],
    "d\\u0061ta": 2,
}
AFTER = {
    "": [1.5, -0.125, 1e-7, 2.5e30, 10**40],
    "true": True,
    "false": False,
    "null": None,
    "data ": '{"data":[7]}',
    "deep": DEEP,
    "d\u0430ta": 3,
}
WHOLE = {name: value for name, value in BEFORE.items() if name != "half"}  # UTF-8 has no half of a pair
ODD = [5.0, -0.0, 1e18, 10**18, 2**63, float("nan"), "7"]


def written(style, data):
    if style == "plain":
        return json.dumps({"data": data}, separators=(",", ":"))
    if style == "indent":
        return json.dumps({**BEFORE, "data": data, **AFTER}, indent=2)
    if style == "raw":
        return json.dumps({**WHOLE, "data": data, **AFTER}, indent="\t", ensure_ascii=False, sort_keys=True)
    last = json.dumps({**AFTER, "data": data, "nested": 1})  # nothing before it is named `data`
    return last.replace('"data": ', '"\\u0064\\u0061t\\u0061": ', 1)


def main():
    style, *files = sys.argv[1:]
    out = open(sys.stdout.fileno(), "w", encoding="utf-8", closefd=False)
    if style == "odd":
        texts = [json.dumps({"data": [1, number, 3]}) for number in ODD]
    else:
        texts = [written(style, json.load(open(file))["data"]) for file in files]
    for text in texts:
        out.write("\x1e" + text)
    out.flush()


main()
