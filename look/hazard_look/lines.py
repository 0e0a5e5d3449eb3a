"""Lines, comments and tokens, as all texts of `hazard` have them, and assignments."""
import re
from typing import NamedTuple

_TOKEN = re.compile(r"[(),=]|[^\s(),=]+")


class Line(NamedTuple):
    """A line of a text: its number from 1, its tokens, and its comment from the first `#` on."""

    number: int
    tokens: list
    comment: str


def lines_of(text):
    """The lines of a text in order. Lines end at line feeds alone, as `hazard` cuts them."""
    rows = text.split("\n")
    if rows[-1] == "":
        rows.pop()
    for number, row in enumerate(rows, 1):
        statement, mark, comment = row.rstrip("\r").partition("#")
        yield Line(number, _TOKEN.findall(statement), mark + comment)


def assignments(words):
    """The values of a report's words `name=bit`."""
    return {name: int(bit) for name, _, bit in (word.rpartition("=") for word in words)}


def assigned(tokens):
    """The values of a statement's tokens `name`, `=`, `bit`, ..; None if they are none."""
    threes = [tokens[at:at + 3] for at in range(0, len(tokens), 3)]
    if any(len(three) != 3 or three[1] != "=" or three[2] not in ("0", "1") for three in threes):
        return None
    return {name: int(bit) for name, _, bit in threes}


def variables(tokens):
    """The variables of a statement's tokens: a node `q`, or a wire of the tokens `q`, `(`, `1`, `)`; other tokens as they are."""
    found = []
    for token in tokens:
        if token == "(" or found and found[-1].endswith("(") or token == ")":
            found[-1:] = ["".join(found[-1:]) + token]
        else:
            found.append(token)
    return found


def spelt(values):
    """Words `name=bit` of some values, with a blank before each."""
    return "".join(f" {name}={bit}" for name, bit in values.items())
