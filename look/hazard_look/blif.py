"""Netlists in BLIF: each cover as the gates that `hazard` makes of it, with the same names in the same order.

Only texts that `hazard` has accepted are read here, so a fault is not looked for.
"""
from typing import NamedTuple

from .netlist import Gate, Netlist


class Cover(NamedTuple):
    """A cover: the nodes that its pins read, its output, and its rows, each a list of tokens."""

    pins: list
    output: str
    rows: list

    def is_constant(self):
        """Whether it has no pins, no rows, or a row without a literal. In an accepted text such a cover is skipped."""
        return not self.pins or not self.rows or any(not set(row[0]) - {"-"} for row in self.rows)


def read(text):
    """The netlist of a text that `hazard` has accepted."""
    inputs, outputs, covers, line_of = [], [], [], {}
    for number, line in _joined(text):
        tokens = line.split()
        if not tokens:
            continue
        if tokens[0] == ".inputs":
            inputs += tokens[1:]
            line_of.update(dict.fromkeys(tokens[1:], number))
        elif tokens[0] == ".outputs":
            outputs += tokens[1:]
        elif tokens[0] == ".names":
            covers.append(Cover(tokens[1:-1], tokens[-1], []))
            line_of[tokens[-1]] = number
        elif not tokens[0].startswith("."):
            covers[-1].rows.append(tokens)
    gates = [gate for cover in covers if not cover.is_constant() for gate in _gates(cover)]
    return Netlist(inputs, [], gates, list(dict.fromkeys(outputs)), line_of=line_of)


def _joined(text):
    """The lines without their comments, each with the number of its first. One that ends in a backslash goes on in the next; the
    backslash is a blank."""
    pieces, first = [], 1
    for number, row in enumerate(text.split("\n"), 1):
        statement = row.removesuffix("\r").partition("#")[0]
        pieces.append(statement.removesuffix("\\"))
        if not statement.endswith("\\"):
            yield first, " ".join(pieces)
            pieces, first = [], number + 1
    yield first, " ".join(pieces)


def _gates(cover):
    """The gates of a cover that is not constant: inverters, row gates, and the gate with the name of its output."""
    name, planes, is_one = cover.output, [row[0] for row in cover.rows], cover.rows[0][1] == "1"
    literals = [[(pin, bit) for pin, bit in enumerate(plane) if bit != "-"] for plane in planes]
    if len(planes) == 1 and len(literals[0]) == 1:
        (pin, bit), = literals[0]
        return [Gate(name, "BUFF" if (bit == "1") == is_one else "NOT", [cover.pins[pin]])]
    inverted = sorted({pin for row in literals for pin, bit in row if bit == "0"})
    gates = [Gate(f"{name}\\n{pin + 1}", "NOT", [cover.pins[pin]]) for pin in inverted]
    rows = [[cover.pins[pin] if bit == "1" else f"{name}\\n{pin + 1}" for pin, bit in row] for row in literals]
    if len(rows) == 1:
        return gates + [Gate(name, "AND" if is_one else "NAND", rows[0])]
    gates += [Gate(f"{name}\\r{number}", "AND", row) for number, row in enumerate(rows, 1) if len(row) > 1]
    terms = [f"{name}\\r{number}" if len(row) > 1 else row[0] for number, row in enumerate(rows, 1)]
    return gates + [Gate(name, "OR" if is_one else "NOR", terms)]
