"""Reads each text with Python's json and prints what it finds: the text's name, the widths, and a line a cell; or why it can't be read.
Written again by json, without spaces, each must be the same text, byte for byte."""
import json
import pathlib
import sys


def widths(value):
    if not isinstance(value, list):
        return []
    below = [widths(item) for item in value] or [[]]
    return [len(value)] + (below[0] if all(item == below[0] for item in below) else ["ragged"])


def cells(value):
    if isinstance(value, list):
        return [cell for item in value for cell in cells(item)]
    return [json.dumps(value)]


def found(text):
    whole = json.loads(text)
    if not isinstance(whole, dict) or list(whole) != ["data"]:
        raise ValueError("not an object with the member data alone")
    if json.dumps(whole, separators=(",", ":")).encode() != text:
        raise ValueError("written again, it is another text")
    return [" ".join(map(str, widths(whole["data"])))] + cells(whole["data"])


for path in map(pathlib.Path, sys.argv[1:]):
    print("==", path.stem)
    try:
        print(*found(path.read_bytes()), sep="\n")
    except ValueError as error:
        print("unread:", error)
