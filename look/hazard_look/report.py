"""Reports of `hazard edges`, read change by change."""
from typing import Dict, Iterator, List, NamedTuple, Optional, Sequence

from .lines import assignments

# What reading a text that is no report raises.
STRANGE = (IndexError, KeyError, RuntimeError, StopIteration, ValueError)
# So many inputs are named in the title of a change.
MOST_TITLED = 16
# The words of a line that names an order; that of a node has more.
_USED = 4
CLASSES = ("steady", "single", "static", "maybe-static", "dynamic", "maybe-dynamic", "unsettled")


class Row(NamedTuple):
    """The line of a node: its value before the change and at last, X if the delays decide; how often it changes along the printed run,
    and at most along every run, None if no bound is known; its class."""

    name: str
    start: str
    end: str
    least: int
    most: Optional[int]
    kind: str

    def moves(self):
        """Whether it changes along some run."""
        return self.kind != "steady"

    def edges(self):
        """The range of its changes, as the report has it."""
        return f"{self.least}" if self.most == self.least else f"{self.least}..{'' if self.most is None else self.most}"


class Order(NamedTuple):
    """An order of two wires of a gate: the second does not make its change of a number before the first has changed."""

    first: str
    second: str
    number: int = 1

    def spelt(self):
        """Its words behind `order` in a script."""
        return f"{self.first} {self.second}" + (f" {self.number}" if self.number != 1 else "")


class Change(NamedTuple):
    """A change of the script. If an earlier one left a node unsettled, `stopped` names it, and there is nothing else. If it uses orders, all
    that is said of it holds of the runs that keep them; `kept` says whether one is printed, and else there are no lines of a run."""

    number: int
    assigned: Dict[str, int]
    rows: Dict[str, Row]
    run_lines: List[str]
    stopped: Optional[str]
    used: Sequence[Order] = ()
    kept: bool = True

    def changes(self):
        """The inputs that get another value, with that. None are known of a change that is not analysed."""
        return {name: bit for name, bit in self.assigned.items() if self.rows and self.rows[name].start != str(bit)}

    def title(self):
        """The number and the inputs that change, as in `3 ck=0`; all that are assigned if none does or if that isn't known. Of many the
        first."""
        words = [f" {name}={bit}" for name, bit in (self.changes() or self.assigned).items()]
        more = f" and {len(words) - MOST_TITLED} more" if len(words) > MOST_TITLED else ""
        return f"{self.number}" + "".join(words[:MOST_TITLED]) + more


class Report(NamedTuple):
    """A whole report: the completed start; its changes, which can be gone through once; and all starts that were read so far."""

    start: Dict[str, int]
    changes: Iterator[Change]
    starts: List[Dict[str, int]]


def read(lines):
    """The report of some lines, whose head is read at once. The rows are counted, as a node may have any name."""
    lines = iter(lines)
    sizes = next(lines).split()
    nodes = int(sizes[2]) + int(sizes[4])
    words = next(lines).split()
    while words[0] == "feedback":
        words = next(lines).split()
    starts = [assignments(words[1:])]
    return Report(starts[0], _changes(lines, nodes, starts), starts)


def _changes(lines, nodes, starts):
    """The changes; a later start is added to the starts."""
    for line in lines:
        word, number, *words = line.split()
        if word == "start":
            starts.append(assignments([number] + words))
            continue
        values, line = assignments(words), next(lines)
        if len(line.split()) == 2:
            yield Change(int(number), values, {}, [], line.split()[1])
        else:
            yield _made(int(number), values, line, lines, nodes)


def _made(number, values, line, lines, nodes):
    """A change that was made, from its second line on: the orders that it uses, the rows, whether a run keeps the orders, the run."""
    used, rows, kept = [], {}, True
    while len(line.split()) == _USED:
        _, first, second, word = line.split()
        used.append(Order(first, second, int(word)))
        line = next(lines)
    for at in range(nodes):
        row = _row(line if at == 0 else next(lines))
        rows[row.name] = row
    line = next(lines)
    if used:
        kept, line = line == "kept yes", next(lines)
    if line.startswith("orders "):
        line = next(lines) if kept else None
    return Change(number, values, rows, _run_lines(line, lines) if kept else [], None, used, kept)


def _row(line):
    name, _, start, _, end, _, edges, kind = line.split()
    least, is_range, most = edges.partition("..")
    return Row(name, start, end, int(least), int(most) if most else None if is_range else int(least), kind)


def _run_lines(first, lines):
    """The lines of the run text at the end of a change."""
    taken = [first]
    while taken[-1] != "end":
        taken.append(next(lines))
    return taken
