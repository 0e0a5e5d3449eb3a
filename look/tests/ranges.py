"""The classes of `edges` against the states that runs reach, and against the rule of one edge, which is older and finds no more."""
import glob
import os

import circuits
from hazard_look import circuit as circuits_read
from hazard_look.netlist import INVERTED


def rows(folder, model, hazard, write, root):
    """Rows of name, found, wanted: a node of class `single` has no step back, each static or dynamic one has; without feedback that is exact."""
    told = {}
    small = [(name, circuit) for name, circuit in model.small_changes() if len(circuit.start) <= 12]
    for name, circuit in small + list(circuits.random_circuits(model, 150, seed=1, gates=(2, 4))):
        if len(circuit.start) > 13:
            continue
        files = [write(folder, "r.bench", circuit.netlist()), write(folder, "r.txt", circuit.script())]
        loaded, (change,) = circuits_read.load(files[0]), hazard.edges(*files).changes
        reached = circuit.reached()
        back = {node for at, node in enumerate(circuit.names)
                if any(state[at] != circuit.start[at] == circuit.excitations(state)[at] for state in reached)}
        kinds = {kind: {node for node, row in change.rows.items() if row.kind == kind} for kind in {row.kind for row in change.rows.values()}}
        once, more = kinds.get("steady", set()) | kinds.get("single", set()), kinds.get("static", set()) | kinds.get("dynamic", set())
        yield f"once in {name}", once & back, set()
        yield f"more than once in {name}", more - back, set()
        yield f"the rule in {name}", {node for node in _covered(loaded, change.rows) if change.rows[node].kind not in ("single", "unsettled")}, set()
        if not loaded.loops():
            yield f"without feedback, {name}", set(kinds) - {"steady", "single", "static", "dynamic"}, set()
        for kind, nodes in kinds.items():
            told[kind] = told.get(kind, 0) + len(nodes)
    print("classes: " + ", ".join(f"{count} {kind}" for kind, count in sorted(told.items())))
    yield "enough of each class", min(told.get(kind, 0) for kind in ("steady", "single", "static", "dynamic", "unsettled")) >= 10, True
    covered = 0
    for path in sorted(glob.glob(os.path.join(root, "examples", "*.txt"))):
        files = [path[:-len(".txt")] + ".bench", path]
        loaded = circuits_read.load(files[0])
        for change in hazard.edges(*files).changes:
            found = {node for node in _covered(loaded, change.rows) if change.rows[node].end != "X"} if change.rows else set()
            covered += len(found)
            yield f"the rule in change {change.number} of {os.path.basename(path)}", {node for node in found if change.rows[node].kind != "single"}, set()
    yield "nodes of examples that the rule covers", covered > 100, True


def _covered(netlist, nodes):
    """The nodes that move and that the rule covers: each gate on which they depend through nodes that move is pushed one way alone."""
    moving = {name for name, row in nodes.items() if row.moves()}
    pulled = {gate.name for gate in netlist.gates if gate.name in moving and not _is_pushed_one_way(gate, nodes, moving)}
    waiting, readers = list(pulled), netlist.readers()
    while waiting:
        for name in readers[waiting.pop()]:
            if name in moving and name not in pulled:
                pulled.add(name)
                waiting.append(name)
    return moving - pulled


def _is_pushed_one_way(gate, nodes, moving):
    pins = [source for source in gate.sources if source in moving]
    if gate.kind in ("XOR", "XNOR"):
        return len(pins) == 1
    return all((nodes[pin].start == nodes[gate.name].start) == (gate.kind not in INVERTED) for pin in pins)
