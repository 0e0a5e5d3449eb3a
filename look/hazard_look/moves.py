"""What nodes may do in a change, and in several changes one after the other: a clock edge is two of them.

A node that makes one clean edge in each half of a clock edge pulses across the edge, though no single change shows it.
"""
from .report import Row


def is_clean(row):
    """Whether a node keeps its value or makes one edge."""
    return row.kind in ("steady", "single")


def kind_of(row):
    """The class of a node with its values, as the literature names hazards: static-1, or from 0 to 1."""
    if row.kind.endswith("static"):
        return f"{row.kind}-{row.start}"
    return f"{row.kind} {row.start}-{1 - int(row.start)}" if row.kind.endswith("dynamic") else row.kind


def classes_of(row):
    """The words that an expectation may use for the class of a node. What is certain is not excluded either, and `change` is what goes to
    the other value."""
    kinds = {row.kind, kind_of(row)}
    if is_clean(row):
        kinds.add("clean")
    if row.kind in ("static", "dynamic"):
        kinds.add(f"maybe-{row.kind}")
    if row.kind in ("single", "dynamic", "maybe-dynamic"):
        kinds.add("change")
    return kinds


class Moves:
    """What each node does in some changes one after the other. Of most nodes, which are steady, nothing is kept."""

    def __init__(self, circuit):
        self.circuit, self.found, self.last = circuit, {}, {}

    def add(self, change):
        """Takes up the next change."""
        self.last = change.rows
        for row in change.rows.values():
            if row.moves():
                self.found.setdefault(row.name, []).append((change.number, row))

    def row(self, name):
        """The row of a node for all of the changes together: the printed runs go on one after the other."""
        told = [row for _, row in self.found.get(name, [])]
        if len(told) < 2:
            return told[0] if told else self.last[name]
        start, end, bounds = told[0].start, told[-1].end, [row.most for row in told]
        least, most = sum(row.least for row in told), None if None in bounds else sum(bounds)
        kind, shown = ("static", 2) if end == start else ("dynamic", 3)
        kind = "unsettled" if end == "X" else kind if least >= shown else f"maybe-{kind}"
        return Row(name, start, end, least, most, kind)

    def pulses(self):
        """The nodes that make a clean edge in more than one of the changes, with the numbers of these changes."""
        for name, told in self.found.items():
            if len(told) > 1 and all(is_clean(row) for _, row in told):
                yield name, [number for number, _ in told]


class Across:
    """Finds the nodes that pulse across the edges of a script. `first_of` has the first change of each edge by its last one."""

    def __init__(self, circuit, first_of):
        self.circuit, self.first_of, self.firsts, self.moves = circuit, first_of, set(first_of.values()), None

    def pulses(self, change):
        """Takes up the next change that is analysed; of the last one of an edge the nodes, with the numbers of the changes in which they move."""
        if change.number in self.firsts:
            self.moves = Moves(self.circuit)
        if self.moves:
            self.moves.add(change)
        if self.moves is None or change.number not in self.first_of:
            return []
        found, self.moves = list(self.moves.pulses()), None
        return found
