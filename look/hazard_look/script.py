"""Scripts: their statements, line by line, with the marks of their comments, which `hazard` skips and these jobs read.

A comment begins with its marks: `#expect ..`, `#clock ..`, `#edge ..`, without a blank behind the `#`. The first other `#` begins a
remark, which goes on to the end of the line. What looks like a mark and is none is a fault, so that nothing is left out unseen.
"""
import difflib
import functools
import os
import re
from typing import Dict, List, NamedTuple, Optional

from .errors import SCRIPT_FAULT, WRONG_WORDS, Failure, read_file
from .lines import assigned, lines_of, variables

NO_CHANGE = "the script has no change"
# The statements of assumptions on delays.
ASSUMING = ("order", "ideal")
MARKS = ("expect", "clock", "edge")
# What a mark `#edge` says of a change that is not the first one of its edge.
GOES_ON = "goes on"
_LIKE_A_MARK = re.compile(r"\s*expects?\b|expect|clock|edge", re.I)
# How like a mark a word is that was meant for it: alone, or with what follows such a mark behind it.
_NEARLY, _ROUGHLY = 0.75, 0.6
_OF_AN_EDGE = re.compile(r"#(\s*)([^\s#=]+)(?:\s+([^\s=]+)(?:=[01])?)?\s*$")


class Mark(NamedTuple):
    """A mark of a comment: its word, and what follows it."""

    word: str
    text: str


class Statement(NamedTuple):
    """A line of a script: `start`, `change`, `order`, `ideal`, or nothing but a comment; its assignments, or the wires of which it assumes
    something, with a number; its marks, its remark, why the marks can't be read, and the line itself."""

    number: int
    keyword: Optional[str]
    values: Dict[str, int]
    assumed: List[str]
    marks: List[Mark]
    remark: str
    faults: List[str]
    line: str

    def texts(self, word):
        """What follows each mark of this word."""
        return [mark.text for mark in self.marks if mark.word == word]

    def is_edge(self):
        """Whether it has an edge `#clock ..`, or what was meant to be one."""
        return bool(self.texts("clock")) or any("#clock" in fault for fault in self.faults)


def read(path):
    """The lines of a script in a file."""
    text = read_file(path)
    for line, raw in zip(lines_of(text), text.split("\n")):
        marks, remark, faults = _comment(line.comment)
        keyword, values, assumed = None, {}, []
        if line.tokens:
            keyword = line.tokens[0].lower()
            if keyword in ASSUMING:
                assumed = variables(line.tokens[1:])
            else:
                values = assigned(line.tokens[1:])
            if keyword not in ("start", "change") + ASSUMING or values is None:
                raise fault_of(path, line.number, "neither `start` nor `change` with assignments", SCRIPT_FAULT)
        yield Statement(line.number, keyword, values, assumed, marks, remark, faults, raw.rstrip("\r"))


def _comment(comment):
    """The marks of a comment, its remark, and what is wrong."""
    marks, remarks, faults = [], [], []
    for piece in comment.split("#")[1:]:
        word, *rest = piece.split(None, 1) if not piece[:1].isspace() else [""]
        if word in MARKS and not remarks:
            marks.append(Mark(word, rest[0].strip() if rest else ""))
        elif _LIKE_A_MARK.match(piece) or word and is_like(word, "expect", is_alone=True):
            faults.append(_not_a_mark(piece.strip(), word))
        else:
            remarks.append("#" + piece.rstrip())
    return marks, " ".join(remarks), faults


def _not_a_mark(piece, word):
    """Why a piece of a comment is no mark, though it looks like one."""
    if word in MARKS:
        return f"`#{word}` stands behind a remark, and so it is not read: write it in front"
    meant = next((mark for mark in MARKS if piece.lower().startswith(mark)), "expect")
    return f"`#{word or ' ' + piece.split()[0]}` is read as a remark: write `#{meant}`, without a blank"


@functools.lru_cache(maxsize=10_000)
def is_like(word, mark, is_alone=False):
    """Whether a word of a remark may have been meant for a mark; `is_alone`: nothing else says so."""
    return difflib.SequenceMatcher(None, word.strip(".:;!?").lower(), mark, False).ratio() >= (_NEARLY if is_alone else _ROUGHLY)


def edge_in_remark(statement, names):
    """Why a line that has nothing but a remark does not make an edge of one of some inputs, though it reads like one; else None."""
    found = _OF_AN_EDGE.match(statement.remark) if not statement.keyword and not statement.marks else None
    if not found or not (found[3] in names if found[3] else not found[1]):
        return None
    if found[2].lower() != "clock" and (found[1] or not is_like(found[2], "clock", is_alone=True)):
        return None
    return f"`#{found[1]}{found[2]}` is read as a remark: write `#clock`, without a blank"


def fault_of(path, number, what, status):
    """A failure that names the line of a file as compilers do."""
    return Failure(f"{path}:{number}: {what}", status)


def must_have_no_edges(path):
    """Fails if a script, which `hazard` has accepted, has edges `#clock ..`: for `hazard` they are comments, so nothing would happen.
    Answers the statements."""
    statements = list(read(path))
    names = next((statement.values for statement in statements if statement.keyword == "start"), {})
    for statement in statements:
        if statement.is_edge():
            raise fault_of(path, statement.number, "the edge is not written out; call `hazard-look clock` first", WRONG_WORDS)
        unread = edge_in_remark(statement, names)
        if unread:
            raise fault_of(path, statement.number, unread, WRONG_WORDS)
    return statements


def must_be_written_out(path):
    """The same for a script that has to have a change."""
    statements = must_have_no_edges(path)
    if all(statement.keyword != "change" for statement in statements):
        raise Failure(f"{NO_CHANGE}, so there is nothing to say: write a line `change INPUT=BIT` behind the start", WRONG_WORDS)
    return statements


def without_repeats(path):
    """The text of a script in which each change stands once: a line that repeats one is empty."""
    rows, seen = read_file(path).split("\n"), set()
    for line in lines_of("\n".join(rows)):
        values = assigned(line.tokens[1:]) if line.tokens[:1] and line.tokens[0].lower() == "change" else None
        if values is not None and frozenset(values.items()) in seen:
            rows[line.number - 1] = ""
        elif values is not None:
            seen.add(frozenset(values.items()))
    return "\n".join(rows)


def assumptions_of(statements):
    """What a script assumes of delays, in its order, each as its line without a comment."""
    return [f"{statement.keyword} {' '.join(statement.assumed)}" for statement in statements if statement.keyword in ASSUMING]


def edges_of(statements):
    """The edges of a script that `hazard-look clock` wrote out: the number of the first change of each by that of its last one."""
    found, first, number = {}, None, 0
    for statement in statements:
        first = None if statement.keyword == "start" else first
        if statement.keyword == "change":
            number += 1
            told = statement.texts("edge")
            if GOES_ON in told and first is not None:
                found.pop(number - 1, None)
            else:
                first = number if told else None
            if first is not None:
                found[number] = first
    return found


def begins_of(statements):
    """The numbers of the changes that begin at a start, in order, each with the number of the last change before the next start."""
    found, number, is_begun = {}, 1, False
    for statement in statements:
        if statement.keyword == "change":
            begin = number if is_begun else begin
            found[begin] = number
            number += 1
        if statement.keyword in ("start", "change"):
            is_begun = statement.keyword == "start"
    return found


def lines_of_changes(statements):
    """The line of each change, by its number."""
    changes = (statement.number for statement in statements if statement.keyword == "change")
    return dict(enumerate(changes, 1))


def name_of(path):
    """The name of a file as findings show it."""
    return os.path.relpath(path) if os.path.isabs(path) and not os.path.relpath(path).startswith(os.pardir) else path


def place_of_assumptions(statements):
    """Behind so many lines of a script a further assumption stands: behind the last one, or else behind the first start."""
    return max((statement.number for statement in statements if statement.keyword in ASSUMING), default=None) or next(
        statement.number for statement in statements if statement.keyword == "start")


def with_lines(text, place, lines):
    """The text of a script with more lines behind so many."""
    rows = text.split("\n")
    end = "\r" if rows[place - 1].endswith("\r") else ""
    rows[place:place] = [line + end for line in lines]
    return "\n".join(rows) if place < len(rows) - len(lines) or not lines else "\n".join(rows) + "\n"
