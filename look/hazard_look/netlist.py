"""Netlists: inputs, flip-flops as cuts, gates; what reads what, and which gates stand in a loop.

Only texts that `hazard` has accepted are read here, so a fault is not looked for.
"""
import re
from typing import NamedTuple

from .lines import lines_of

# What `from-yosys` writes behind an output whose node has the name of another port.
_OTHER_NAME = re.compile(r"#\s*(\S+) of the design$")
# What `from-yosys` writes behind a gate: its place in the source text.
_PLACE = re.compile(r".*# (\S+:[0-9]+)$")
INVERTED = {"NAND": "AND", "NOR": "OR", "XNOR": "XOR", "NOT": "BUFF"}


class Gate(NamedTuple):
    """A gate: its name, its kind in capitals (`BUF` is `BUFF`), and the nodes that its pins read."""

    name: str
    kind: str
    sources: list


class Cut(NamedTuple):
    """A flip-flop: its output, which is an input of the circuit, its data node, and the comment of its line."""

    name: str
    data: str
    comment: str


class Netlist:
    """A circuit. Its nodes are its inputs, its flip-flops and its gates, in this order, as in a report. `other_names` are those that
    a design has for some nodes. `line_of` says on which line of its file each node stands, `source_of` from which place of a source text
    it comes."""

    def __init__(self, primary, cuts, gates, outputs, other_names=None, line_of=None, source_of=None):
        self.primary, self.cuts, self.gates, self.outputs = primary, cuts, gates, outputs
        self.inputs = primary + [cut.name for cut in cuts]
        self.nodes = self.inputs + [gate.name for gate in gates]
        self.gate_of = {gate.name: gate for gate in gates}
        self.other_names, self.line_of, self.source_of = other_names or {}, line_of or {}, source_of or {}
        self.known = set(self.nodes)

    def place(self, node, path):
        """Where a node stands in a file, and in the source text if that is known, as `top.v:3, net.bench:7`."""
        line = f"{path}:{self.line_of[node]}" if node in self.line_of else ""
        return ", ".join(filter(None, [self.source_of.get(node), line]))

    def sources(self, node):
        """The nodes that a node reads: none for an input."""
        return self.gate_of[node].sources if node in self.gate_of else []

    def readers(self):
        """The gates that read each node, each once, in order."""
        readers = {node: {} for node in self.nodes}
        for gate in self.gates:
            for source in gate.sources:
                readers[source][gate.name] = None
        return {node: list(names) for node, names in readers.items()}

    def unread_inputs(self):
        """The inputs that neither a gate nor a flip-flop reads."""
        read = {source for gate in self.gates for source in gate.sources} | {cut.data for cut in self.cuts}
        return [name for name in self.inputs if name not in read]

    def start_nodes(self, rank):
        """The nodes that a start lists: the inputs, and gates of which each loop has one, so that all other gates follow from
        them. Of the gates of a component the one with the least `rank` is listed, and then what still goes round is looked at
        again. What goes round after many such looks is listed as a whole."""
        listed, loops, looks = set(), self.loops(), 0
        while loops:
            looks += 1
            listed.update(name for loop in loops for name in ([min(loop, key=rank)] if looks < _MOST_LOOKS else loop))
            loops = self.loops(listed)
        return self.inputs + [gate.name for gate in self.gates if gate.name in listed]

    def loops(self, left_out=frozenset()):
        """The components of feedback without some gates: the largest sets of gates in which each reaches each other."""
        names = [name for name in self.gate_of if name not in left_out]
        return [component for component in self.components(names) if self._is_loop(component)]

    def _is_loop(self, component):
        return len(component) > 1 or component[0] in self.sources(component[0])

    def components(self, names):
        """The strongly connected components of some gates alone, by Tarjan's algorithm with a stack of its own. A component comes
        after those that it reads."""
        within = set(names)
        order, low, stack, found = {}, {}, [], []
        for root in names:
            waiting = [] if root in order else [(root, iter(self.sources(root)))]
            if waiting:
                order[root] = low[root] = len(order)
                stack.append(root)
            while waiting:
                node, sources = waiting[-1]
                source = next((name for name in sources if name in within and low.get(name) != _CLOSED), None)
                if source is None:
                    waiting.pop()
                    if waiting:
                        above = waiting[-1][0]
                        low[above] = min(low[above], low[node])
                    if low[node] == order[node]:
                        found.append(_taken(stack, node, low))
                elif source in order:
                    low[node] = min(low[node], order[source])
                else:
                    order[source] = low[source] = len(order)
                    stack.append(source)
                    waiting.append((source, iter(self.sources(source))))
        return found


# How often the loops that are left are looked for, one gate of each being listed.
_MOST_LOOKS = 30
# The low number of a node whose component is complete: no node that is still open has it.
_CLOSED = -1


def _taken(stack, node, low):
    """Takes a complete component off the stack, and closes its nodes."""
    component = []
    while not component or component[-1] != node:
        component.append(stack.pop())
        low[component[-1]] = _CLOSED
    return component[::-1]


def read(text):
    """The netlist of a text that `hazard` has accepted."""
    primary, cuts, gates, outputs, other_names, line_of, source_of = [], [], [], [], {}, {}, {}
    for line in lines_of(text):
        tokens = line.tokens
        if not tokens:
            continue
        is_gate = tokens[1] == "="
        if is_gate or tokens[0].upper() == "INPUT":
            name = tokens[0 if is_gate else 2]
            line_of[name], place = line.number, _PLACE.match(line.comment)
            if place:
                source_of[name] = place[1]
        if not is_gate and tokens[0].upper() == "INPUT":
            primary.append(tokens[2])
        elif not is_gate:
            outputs.append(tokens[2])
            found = _OTHER_NAME.match(line.comment)
            if found:
                other_names[found[1]] = tokens[2]
        elif tokens[2].upper() == "DFF":
            cuts.append(Cut(tokens[0], tokens[4], line.comment))
        else:
            kind = tokens[2].upper()
            gates.append(Gate(tokens[0], "BUFF" if kind == "BUF" else kind, tokens[4:-1:2]))
    return Netlist(primary, cuts, gates, outputs, other_names, line_of, source_of)
