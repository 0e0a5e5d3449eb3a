"""Whether a hazard is one of the function or of the logic, and which term would cover it.

A function hazard is there in the function itself: between the old inputs and the new ones lie inputs for which the node has the other
value. A logic hazard is not, so gates can be without it. Both are told for nodes that don't depend on feedback, if few inputs change.
"""
from .netlist import INVERTED
from .sentence import MOST_NAMED

# Of more inputs that change, or that a term is looked for among, nothing is said.
MOST_INPUTS = 12
# A term is made smaller as long as that takes no more work than this, in gates.
MOST_WORK = 200_000


def told(circuit, change, row):
    """A line on the hazard of a row, or none."""
    gates, inputs = _cone(circuit, row.name)
    if gates is None or row.kind not in ("static", "dynamic"):
        return []
    changed = [name for name in inputs if change.rows[name].moves()]
    if len(changed) > MOST_INPUTS:
        return []
    start = {name: int(change.rows[name].start) for name in inputs}
    values, every = _values(gates, start, changed, row.name), (1 << (1 << len(changed))) - 1
    old = int(row.start)
    other = values ^ (every if old else 0)
    if row.kind == "static" and other:
        return [f"a function hazard: with {_changed(changed, start, _lowest(other))} alone changed it is {1 - old}, so no cover takes it away"]
    if row.kind == "dynamic":
        return ["a function hazard: its function goes back and forth between the old inputs and the new ones, so no cover takes it away" if _goes_back(other, every, len(changed))
                else "a logic hazard: its function changes once between the old inputs and the new ones"]
    term = _term(gates, start, changed, inputs, row.name, old)
    held = " ".join(f"{name}={start[name]}" for name in term[:MOST_NAMED]) + (f" and {len(term) - MOST_NAMED} more" if len(term) > MOST_NAMED else "")
    if not term:
        return ["a logic hazard: its function does not depend on these inputs"]
    return [f"a logic hazard: a term that is {old} at {held} would cover it" + (f", as {_gate(term, start, old)}" if 1 < len(term) <= MOST_NAMED else "")]


def _cone(circuit, name):
    """The gates that a node depends on, each after those that it reads, and the inputs; None for gates in a loop."""
    gates, inputs, open_, begun = {}, {}, [(name, False)], set()
    while open_:
        node, is_done = open_.pop()
        if node not in circuit.gate_of:
            inputs[node] = None
        elif is_done:
            gates[node] = circuit.gate_of[node]
        elif node not in gates:
            if node in begun:
                return None, None
            begun.add(node)
            open_ += [(node, True)] + [(source, False) for source in dict.fromkeys(circuit.sources(node))]
    return gates, [node for node in circuit.inputs if node in inputs]


def _values(gates, start, changed, name):
    """The values of a node, a bit for each set of inputs that have changed."""
    every, value = (1 << (1 << len(changed))) - 1, {}
    for node, bit in start.items():
        value[node] = every if bit else 0
    for at, node in enumerate(changed):
        value[node] ^= _has(at, len(changed))
    for gate in gates.values():
        value[gate.name] = _gate_values(gate, [value[source] for source in gate.sources], every)
    return value[name]


def _has(at, count):
    """The sets, of so many inputs, that have a certain one."""
    size, block = 1 << at, ((1 << (1 << at)) - 1) << (1 << at)
    found, width = block, 2 * size
    while width < 1 << count:
        found |= found << width
        width *= 2
    return found


def _gate_values(gate, pins, every):
    connective, found = INVERTED.get(gate.kind, gate.kind), pins[0]
    for pin in pins[1:]:
        found = found & pin if connective == "AND" else found | pin if connective == "OR" else found ^ pin
    return found ^ every if gate.kind in INVERTED else found


def _lowest(bits):
    return (bits & -bits).bit_length() - 1


def _changed(changed, start, number):
    return ", ".join(f"{name}={1 - start[name]}" for at, name in enumerate(changed) if number >> at & 1)


def _goes_back(new, every, count):
    """Whether some set with the new value has a larger one with the old value."""
    above = new
    for at in range(count):
        above |= (above & ~_has(at, count) & every) << (1 << at)
    return bool(above & ~new)


def _term(gates, start, changed, inputs, name, bit):
    """Inputs that don't change and that hold the node by themselves: as few as leaving one out after the other gives."""
    free, kept = list(changed), []
    fixed = [node for node in inputs if node not in changed]
    if len(fixed) * len(gates) > MOST_WORK:
        return fixed
    for node in fixed:
        tried = free + [node]
        every = (1 << (1 << len(tried))) - 1
        if len(tried) <= MOST_INPUTS and _values(gates, start, tried, name) == (every if bit else 0):
            free = tried
        else:
            kept.append(node)
    return kept


def _gate(term, start, bit):
    """The term as a gate: an AND for a 1, an OR for a 0, of inputs that are inverted if they have to be."""
    pins = ", ".join(node if start[node] == bit else f"NOT {node}" for node in term)
    return f"{'AND' if bit else 'OR'}({pins})"
