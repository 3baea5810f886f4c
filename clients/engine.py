"""Puts texts to the engine by the program that read.c makes, and knows what the engine must say of them: `ask` has answers, `Data` finds
the value of `data` in a sound text by its tokens, with the byte place of each, and tells the cells or the refusal that are due."""
import json
import re
import subprocess

INT, BOOLEAN = 1, 3
TOKEN = re.compile(r'[ \t\n\r]*("(?:[^"\\]|\\.)*"|[^ \t\n\r"\[\]{}:,]+|[\[\]{}:,])')


def refused(number, byte):
    return [f"refused {number} 0 {byte}"]


def blocks(lines):
    """The lines of each text by its name, as write.c and read.c print them, and the readers."""
    found, block = {}, []
    for line in lines:
        if line.startswith("== "):
            found[line[3:]] = block = []
        else:
            block.append(line)
    return found


def ask(program, questions):
    """The answer to each question, (type, widths, text): its lines, the widths and the cells or the refusal. And how many of the program's
    own checks failed."""
    asked = b"".join(
        f"{i} {of} {len(text)} {' '.join(map(str, widths))}\n".encode() + text + b"\n" for i, (of, widths, text) in enumerate(questions)
    )
    done = subprocess.run([program], input=asked, stdout=subprocess.PIPE)
    found = blocks(done.stdout.decode().splitlines())
    return [found.get(str(i), ["no answer"]) for i in range(len(questions))], done.returncode


class Data:
    """The value of `data` in a sound text: `name` is where its name's quote stands, `leaves` its values other than brackets, and `closing`
    its last bracket. Each is a byte place from 1, and the token."""

    def __init__(self, text):
        self.text, self.leaves, self.closing, self.name = text, [], None, None
        depth, before, inside = 0, "", False
        for token in TOKEN.finditer(text.decode("latin-1")):
            at, token = token.start(1) + 1, token.group(1)
            depth += (token in "[{") - (token in "]}")
            if depth == 1 and before in "{," and token[0] == '"' and json.loads(token) == "data":
                self.name, inside = at, True
            elif depth == 0 or (depth == 1 and token == ","):
                inside = False
            elif inside and token in "[]":
                self.closing = at
            elif inside and token not in ":,":
                self.leaves.append((at, token))
            before = token

    def due(self, widths):
        """What the engine must say of it as an INT or BOOLEAN array of these widths, which the brackets fit."""
        for at, token in self.leaves:
            if fitted(token) is None:
                return refused(16, at)
        return [" ".join(map(str, widths))] + [fitted(token) for _, token in self.leaves]

    def changed(self, at, old, new):
        """The text with other bytes at a place."""
        begin = at - 1
        assert self.text[begin:begin + len(old)] == old.encode()
        return self.text[:begin] + new.encode() + self.text[begin + len(old):]


def fitted(token):
    """The cell that a value is, as read.c prints it: whole and in range, without fraction or exponent. None if it is no cell."""
    if token in ("null", "true", "false"):
        return token
    if re.fullmatch(r"-?(0|[1-9]\d*)", token) and -(2**63) <= int(token) < 2**63:
        return str(int(token))
    return None
