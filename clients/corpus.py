"""Puts the texts of other parsers' test corpora to the engine, and compares: `corpus.py READ PACKAGES LIST`, READ being the program that
read.c makes, PACKAGES the folder with the unpacked packages, LIST the differences that are expected, each with its reason. The engine
reads one object with a member `data`, so each text is put as the value of another member, before `data` and behind it; where it begins an
object, with a `data` inserted as its first member; and as it is, which must be refused with 15 at a known byte. A text is `taken` where
all ways but the last are read as one INT cell, and `refused` where they are refused with 15."""
import ast
import sys
from collections import Counter
from pathlib import Path

from engine import INT, ask, refused

VALID, INVALID, EITHER = "valid", "invalid", "either"
BLANKS = b" \t\n\r"
TAKEN = ["1", "1"]


def by_letter(path):
    """JSON Parsing Test Suite: y_, n_, i_."""
    return {"y": VALID, "n": INVALID, "i": EITHER}[path.name[0]]


def by_word(path):
    """JSON_checker, and what has its names: failN.json, fail_*.json; the others are valid."""
    return INVALID if path.name.startswith("fail") else VALID


def by_folder(path):
    return INVALID if path.parent.parent.name.startswith("invalid") else VALID


def by_gold(path):
    """yajl: what its test prints for the case is in a file beside it."""
    return INVALID if b"error: " in path.with_name(path.name + ".gold").read_bytes() else VALID


def always(path):
    return VALID


FILES = [
    ("haskell-aeson", "*/tests/JSONTestSuite/test_parsing/*.json", by_letter),
    ("haskell-aeson", "*/tests/JSONTestSuite/test_transform/*.json", always),
    ("libcpanel-json-xs-perl", "*/t/test_parsing/*.json", by_letter),
    ("libcpanel-json-xs-perl", "*/t/test_transform/*.json", always),
    ("yojson", "*/test/compliance/test_cases/*.json", by_letter),
    ("haskell-json", "*/tests/unit/*.json", by_word),
    ("libjsoncpp", "*/test/jsonchecker/*.json", by_word),
    ("libjsoncpp", "*/test/data/*.json", by_word),
    ("jansson", "*/test/suites/*/*/input", by_folder),
    ("yajl", "*/test/parsing/cases/*.json", by_gold),
    ("golang-github-valyala-fastjson", "*/testdata/*.json", always),
    ("tao-json", "*/tests/**/*.json", always),
    ("lua-cjson", "*/tests/*.json", always),
    ("json-c", "*/tests/*.json", always),
    ("cjson", "*/tests/json-patch-tests/*.json", always),
    ("cjson", "*/tests/inputs/test[!6]", always),
    ("cjson", "*/tests/inputs/test1?", always),
]
PYTHON = [
    ("libpython3.11-testsuite", "usr/lib/python3.11/test/test_json"),
    ("python3-simplejson", "usr/lib/python3/dist-packages/simplejson/tests"),
]


def constants(path):
    """The values that a Python file gives to its names, where they are written out."""
    found = {}
    for node in ast.parse(path.read_text()).body:
        if isinstance(node, ast.Assign) and isinstance(node.value, (ast.Constant, ast.List, ast.Dict)):
            found[node.targets[0].id] = ast.literal_eval(node.value)
    return found


def python_texts(folder):
    """JSON_checker once more, as Python's own tests have it, and what these add: name, verdict, text."""
    fail = constants(folder / "test_fail.py")
    for number, text in enumerate(fail["JSONDOCS"], 1):
        yield f"test_fail.py:{number}", VALID if number in fail["SKIPS"] else INVALID, text.encode()
    for number in (1, 2, 3):
        yield f"test_pass{number}.py", VALID, constants(folder / f"test_pass{number}.py")["JSON"].encode()


def all_texts(packages):
    """Package, name, verdict and text; the same text under the same verdict comes once."""
    seen = set()
    listed = [(package, path.name if path.name != "input" else path.parent.name, judge(path), path.read_bytes())
              for package, pattern, judge in FILES for path in sorted((packages / package).glob(pattern))]
    listed += [(package, *text) for package, folder in PYTHON for text in python_texts(packages / package / folder)]
    for package, name, verdict, text in listed:
        if (verdict, text) not in seen:
            seen.add((verdict, text))
            yield package, name.replace(" ", "_"), verdict, text


def put(text):
    """The ways in which a text is put. `whole` is the text itself with a `data` inserted, where it begins an object."""
    ways = {"raw": text, "before": b'{"a":' + text + b',"data":[1]}', "behind": b'{"data":[1],"a":' + text + b"}"}
    before, brace, behind = text.partition(b"{")
    if brace and not before.strip(BLANKS):
        ways["whole"] = before + b'{"data":[1]' + b"," * (not behind.lstrip(BLANKS).startswith(b"}")) + behind
    return ways


def outcome(answers):
    """`taken`, `refused`, or what became of each way."""
    short = {way: "taken" if answer == TAKEN else "refused" if answer[0].startswith("refused 15 ") else answer[0]
             for way, answer in answers.items() if way != "raw"}
    return short["before"] if len(set(short.values())) == 1 else ", ".join(f"{way} {said}" for way, said in short.items())


def unsound(text, answers):
    """What is wrong with the byte places: as it is, a text that is no object is refused at its first byte that is no blank, and one that
    is an object one past its end; what is wrong inside an object is found at the same byte of it, with a `data` inserted or not."""
    begins = len(text) - len(text.lstrip(BLANKS)) + 1
    places = {way: int(answer[0].split()[3]) for way, answer in answers.items() if answer[0].startswith("refused 15 ")}
    if "whole" not in answers:
        return [] if answers["raw"] == refused(15, begins) else [f"as it is: {answers['raw'][0]}, due at {begins}"]
    if answers["whole"] == TAKEN and places.get("raw") != len(text) + 1:
        return [f"an object without data: {answers['raw'][0]}, due at {len(text) + 1}"]
    inserted = len(put(text)["whole"]) - len(text)
    if "whole" in places and places.get("raw") != places["whole"] - inserted:
        return [f"as it is: {answers['raw'][0]}, with data inserted: {answers['whole'][0]}"]
    return []


def shifted(text, answers):
    """What is refused inside a text is refused at the same byte of it before `data` and behind it."""
    inside = [int(answers[way][0].split()[3]) - len(before) for way, before in (("before", b'{"a":'), ("behind", b'{"data":[1],"a":'))
              if answers[way][0].startswith("refused 15 ")]
    if len(inside) == 2 and min(inside) <= len(text) and inside[0] != inside[1]:
        return [f"byte {inside[0]} of the text before data, {inside[1]} behind it"]
    return []


def listed(path):
    """The differences that are expected, by package and name; the reasons."""
    lines = [line.split("\t") for line in Path(path).read_text().splitlines() if line and not line.startswith("#")]
    return {(package, name): (verdict, said, reason) for package, name, verdict, said, reason in lines}


def main():
    read, packages, path = sys.argv[1:]
    texts = list(all_texts(Path(packages)))
    questions = [(key, way, text) for key, (*_, whole) in enumerate(texts) for way, text in put(whole).items()]
    said, failed = ask(read, [(INT, [1], text) for _, _, text in questions])
    answers = [{} for _ in texts]
    for (key, way, _), answer in zip(questions, said):
        answers[key][way] = answer
    expected, wrong, reasons = listed(path), [f"{failed} checks of read.c"] * (failed > 0), Counter()
    counts = {package: Counter() for package, *_ in texts}
    for (package, name, verdict, text), ways in zip(texts, answers):
        became = outcome(ways)
        agreed = (verdict, became) in ((VALID, "taken"), (INVALID, "refused"))
        counts[package][f"{verdict} {became}" if agreed else EITHER if verdict == EITHER else "different"] += 1
        wrong += [f"{package} {name}: {what}" for what in unsound(text, ways) + shifted(text, ways)]
        if agreed:
            continue
        due = expected.pop((package, name), (verdict, "as its verdict says", ""))
        reasons[due[2]] += 1
        if due[:2] != (verdict, became):
            wrong.append(f"{package}\t{name}\t{verdict}\t{became}\t{due[1]} was expected")
    wrong += [f"{package} {name}: is listed, but is no difference" for package, name in expected]
    report(counts, reasons, wrong)
    return len(wrong) > 0 or not texts


def report(counts, reasons, wrong):
    columns = ["valid taken", "invalid refused", "different", EITHER]
    print(f"{'package':32}" + "".join(f"{column:>17}" for column in columns))
    for package, count in counts.items():
        print(f"{package:32}" + "".join(f"{count[column]:17}" for column in columns))
    total = sum(counts.values(), Counter())
    print(f"{'all':32}" + "".join(f"{total[column]:17}" for column in columns))
    print("differences, and texts without a verdict, by reason:")
    print("".join(f"{count:6}  {reason}\n" for reason, count in sorted(reasons.items())), end="")
    print("".join(f"wrong: {line}\n" for line in wrong), end="")
    figures = f"{total['valid taken']} valid taken, {total['invalid refused']} invalid refused, {total['different']} differences"
    print(f"corpora: {len(counts)} packages, {figures}, {total[EITHER]} without a verdict, {len(wrong)} wrong")


sys.exit(main())
