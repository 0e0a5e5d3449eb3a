"""Gates that yosys split, made one again: it reads a NAND as an AND and an inverter, and a gate of three pins as two gates.

A gate that the source text does not name, and that one pin of one gate reads, goes into that gate: an AND into an AND or a NAND, an OR
into an OR or a NOR, an XOR into an XOR or an XNOR, and any of these kinds into an inverter.
"""
from .netlist import INVERTED, Gate

_MOST_PINS = 256
_INVERSE = {kind: inverted for inverted, kind in INVERTED.items()} | INVERTED


def joined(gates, fixed):
    """The gates, in their order, without those that went into others. `fixed` has the names that stay: those that the source text
    has, and those that something else reads."""
    by_name, readers = {gate.name: gate for gate in gates}, {}
    for gate in gates:
        for source in gate.sources:
            readers.setdefault(source, []).append(gate.name)
    into = {name: names[0] for name, names in readers.items() if len(names) == 1 and name in by_name and name not in fixed}
    for name in into:
        inner, outer = by_name[name], _end(into, by_name, name)
        made = None if outer is None else _one(by_name[outer], inner)
        if made:
            by_name[outer] = made
            by_name[name] = None
    return [by_name[gate.name] for gate in gates if by_name[gate.name]]


def _end(into, by_name, name):
    """The gate that has taken up the reader of a gate; None if that is the gate itself, in a loop without a name."""
    at = into[name]
    while by_name[at] is None:
        at = into[at]
    return None if at == name else at


def _one(outer, inner):
    """One gate for two, of which the outer one reads the inner one; None if there is none."""
    if outer.kind == "NOT" and inner.kind in ("AND", "OR", "XOR", "NAND", "NOR", "XNOR"):
        return Gate(outer.name, _INVERSE[inner.kind], inner.sources)
    if inner.kind not in ("AND", "OR", "XOR") or INVERTED.get(outer.kind, outer.kind) != inner.kind:
        return None
    at = outer.sources.index(inner.name)
    sources = outer.sources[:at] + inner.sources + outer.sources[at + 1:]
    return Gate(outer.name, outer.kind, sources) if len(sources) <= _MOST_PINS else None
