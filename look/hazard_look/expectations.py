"""What is expected of a circuit: the items behind `#expect` in the comments of a script, and the changes that each speaks of."""
import bisect
import re
from typing import Dict, List, NamedTuple, Optional, Union

from . import script
from .circuit import no_node
from .errors import WRONG_WORDS, Failure
from .lines import assigned
from .report import CLASSES

# What a class may be besides those of a report.
MORE_CLASSES = ("clean", "static-0", "static-1", "change")
# What is expected of an edge as a whole has this in front.
EDGE = "edge:"
FORMS = "`NODE CLASS`, `NODE CLASS or CLASS`, `edges NODE <= N`, `never NODE=BIT ..`, `settled`"
_RANGE = re.compile(r"(.*?)\s+in\s+([0-9]+)(?:\.\.([0-9]+))?$")


class Class(NamedTuple):
    """A node has one of some classes."""

    node: str
    kinds: List[str]


class Edges(NamedTuple):
    """A node makes no more edges than a number."""

    node: str
    most: int


class Never(NamedTuple):
    """No state has all of these values."""

    values: Dict[str, int]


class Settled(NamedTuple):
    """No node is unsettled."""


class Expectation(NamedTuple):
    """What is expected, its words, its line in the script, and the first and the last of the changes that it speaks of as a whole. A
    default has None for both: it is meant for each change alone, or for each edge, behind the start before the change `begin`; all changes
    are behind the first start."""

    what: Union[Class, Edges, Never, Settled]
    text: str
    line: int
    first: Optional[int]
    last: Optional[int]
    of_edge: bool
    begin: Optional[int] = None

    def overrides(self, default):
        """Whether a default is not asked in the change of this one: this one speaks of the same node, or wants a node unsettled."""
        if isinstance(self.what, (Class, Edges)) and isinstance(default.what, (Class, Edges)):
            return self.what.node == default.what.node
        return isinstance(default.what, Settled) and isinstance(self.what, Class) and self.what.kinds == ["unsettled"]


class _Script:
    """What reading an expectation has to know of the script besides its own line."""

    def __init__(self, statements, circuit):
        self.circuit, self.edges = circuit, script.edges_of(statements)
        self.changes, self.lasts = len(script.lines_of_changes(statements)), script.begins_of(statements)
        self.begins, self.ends = list(self.lasts), list(self.edges)
        self.number, self.is_begun = 0, False

    def goes_on(self, keyword):
        """Takes up the next line."""
        self.number += keyword == "change"
        self.is_begun = keyword == "start" or self.is_begun and keyword != "change"

    def begin(self):
        """The first change that a default is meant for, if one stands on this line; else None."""
        return 1 if self.number == 0 else self.number + 1 if self.is_begun else None

    def last(self, begin):
        """The last change that a default is meant for."""
        return self.changes if begin == 1 else self.lasts.get(begin, 0)

    def has_edge(self, begin):
        """Whether an edge is among the changes that a default is meant for."""
        return bisect.bisect_left(self.ends, begin) < bisect.bisect_right(self.ends, self.last(begin))

    def has_start_between(self, first, last):
        """Whether a change after the first one begins at a start."""
        return bisect.bisect_right(self.begins, first) < bisect.bisect_right(self.begins, last)


def read(path, statements, circuit):
    """The expectations of a script, each fault with its line."""
    found, faults, place = [], [], _Script(statements, circuit)
    for statement in statements:
        place.goes_on(statement.keyword)
        told = statement.faults + list(_hidden(statement.remark, circuit))
        for text in statement.texts("expect"):
            of_edge = text.lower().startswith(EDGE)
            for item in text[len(EDGE):].split(",") if of_edge else text.split(","):
                one = _expectation(item, statement.number, of_edge, place)
                (told if isinstance(one, str) else found).append(one)
        faults += [f"{path}:{statement.number}: {fault}" for fault in told]
    if faults:
        raise Failure("\n".join(faults), WRONG_WORDS)
    return found


def _hidden(remark, circuit):
    """That a remark has an expectation in its words, which nobody would check."""
    for piece in remark.split("#"):
        words = piece.split()
        for at in [at for at, word in enumerate(words) if script.is_like(word, "expect")]:
            item = " ".join(words[at + 1:]).partition(",")[0]
            if not isinstance(_read_item(item.split(), circuit), str):
                yield f"`{words[at]} {item}` stands in a remark, and so it is not read: write `#expect` in front of the remark"


def _expectation(item, line, of_edge, place):
    """The expectation of an item on a line; or why it can't be read."""
    text, ranged, begin = " ".join(item.split()), _RANGE.match(item.strip()), place.begin()
    first = last = None if begin else place.number
    if ranged and not of_edge:
        item, first, last, begin = ranged[1], int(ranged[2]), int(ranged[3] or ranged[2]), None
        if not 1 <= first <= last <= place.changes:
            return f"`{text}`: the script has the changes 1 to {place.changes}"
        if place.has_start_between(first, last):
            return f"`{text}`: a start stands between these changes"
    fault = _of_place(text, of_edge, begin, last, place)
    what = _read_item(item.split(), place.circuit)
    if fault or isinstance(what, str):
        return fault or what
    first = place.edges[last] if of_edge and last else first
    if (of_edge or first != last) and isinstance(what, (Never, Settled)):
        return f"`{text}` speaks of each change alone: write it without `{EDGE}` and without a range"
    return Expectation(what, f"{EDGE} {text}" if of_edge else text, line, first, last, of_edge, begin)


def _of_place(text, of_edge, begin, last, place):
    """Why something expected at a place would never be asked: no change or no edge is there."""
    if begin and begin > place.last(begin):
        return f"`{text}`: no change stands behind this start"
    if of_edge and begin and not place.has_edge(begin):
        return f"`{EDGE} {text}`: no edge follows; it is expected of edges, which `hazard-look clock` writes"
    if of_edge and last and last not in place.edges:
        return f"`{EDGE} {text}`: no edge ends here; it stands at the last change of an edge, where `hazard-look clock` writes it"
    return ""


def _read_item(words, circuit):
    """What some words expect, or why they can't be read."""
    if words == ["settled"]:
        return Settled()
    if words[:1] == ["never"]:
        return _read_never(words, circuit)
    if words[:1] == ["edges"] and "<=" in words:
        if len(words) != 4 or words[2] != "<=" or not re.fullmatch("[0-9]{1,9}", words[3]):
            return f"`{' '.join(words)}` is no expectation: a number of edges is `edges NODE <= N`"
        return Edges(words[1], int(words[3])) if words[1] in circuit.known else no_node(circuit, words[1])
    if len(words) % 2 or words[2::2] != ["or"] * (len(words) // 2 - 1) or not words:
        return f"`{' '.join(words)}` is no expectation: {FORMS}; a remark begins with another #"
    strange = [word for word in words[1::2] if word not in CLASSES + MORE_CLASSES]
    if strange:
        return f"no class is named {strange[0]}; the classes are {', '.join(CLASSES + MORE_CLASSES)}"
    return Class(words[0], words[1::2]) if words[0] in circuit.known else no_node(circuit, words[0])


def _read_never(words, circuit):
    """What words behind `never` expect, or why they can't be read."""
    values = assigned([token for word in words[1:] for token in word.partition("=")])
    if values and len(values) < len(words) - 1:
        return "after `never` stands each node once"
    strange = [name for name in values or () if name not in circuit.known]
    if not values:
        return "after `never` stand assignments, as in `never g1=1 g2=1`"
    return no_node(circuit, strange[0]) if strange else Never(values)
