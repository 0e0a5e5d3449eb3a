"""The complete network of a netlist, and a follower that goes along its runs.

The follower only proposes: whatever it makes is shown after `hazard replay` has accepted it.
"""
from .netlist import INVERTED


class Network:
    """The variables of a netlist: the nodes, and then a wire for each pin, by gate and pin. If it is `sorted`, the wires of a gate stand
    in the order of the nodes that they come from, so that the order of the pins decides nothing."""

    def __init__(self, netlist, is_sorted=False):
        self.netlist = netlist
        self.nodes, self.inputs = len(netlist.nodes), len(netlist.inputs)
        self.names = list(netlist.nodes)
        number = {name: at for at, name in enumerate(self.names)}
        # of each wire its source and its gate, and of each gate its first wire
        self.source, self.gate, self.first_wire = [None] * self.nodes, [None] * self.nodes, [None] * self.nodes
        self.fan_out = [[] for _ in range(self.nodes)]
        # of each gate: how many ones make the connective 1, or 0 for an XOR; whether it is inverted; its number of pins
        self.needed, self.inverted, self.pins = [0] * self.nodes, [0] * self.nodes, [0] * self.nodes
        for place, gate in enumerate(netlist.gates, self.inputs):
            pins = [(number[source], pin) for pin, source in enumerate(gate.sources, 1)]
            self.first_wire[place], self.pins[place] = len(self.names), len(pins)
            connective = INVERTED.get(gate.kind, gate.kind)
            self.needed[place] = {"AND": len(pins), "XOR": 0}.get(connective, 1)
            self.inverted[place] = int(gate.kind in INVERTED)
            for source, pin in sorted(pins) if is_sorted else pins:
                self.fan_out[source].append(len(self.names))
                self.source.append(source)
                self.gate.append(place)
                self.names.append(f"{gate.name}({pin})")
        self.number = {name: at for at, name in enumerate(self.names)}
        # the last cone that was asked for
        self._cone = None, None

    def is_input(self, variable):
        return variable < self.inputs

    def is_wire(self, variable):
        return variable >= self.nodes

    def wires(self, gate):
        """The wires into a gate."""
        first = self.first_wire[gate]
        return range(first, first + self.pins[gate])

    def asks(self, variable, ones):
        """What a gate or a wire is asked for if so many of the variables that it reads are 1."""
        if variable >= self.nodes:
            return ones
        needed = self.needed[variable]
        return (ones >= needed if needed else ones & 1) ^ self.inverted[variable]

    def control(self, variable, bit):
        """The value with which one pin alone makes a gate ask for a bit; None if that takes all pins."""
        if variable >= self.nodes or self.pins[variable] == 1 or not self.needed[variable]:
            return None
        is_and, asked = self.needed[variable] > 1, bit ^ self.inverted[variable]
        return asked if is_and != bool(asked) else None

    def reads(self, variable):
        """The variables on which its excitation depends."""
        if variable >= self.nodes:
            return [self.source[variable]]
        return [] if variable < self.inputs else list(self.wires(variable))

    def readers(self, variable):
        """The variables that read it."""
        return [self.gate[variable]] if variable >= self.nodes else self.fan_out[variable]

    def sources_of(self, gate):
        """The nodes that the pins of a gate read, as they are written."""
        return [self.number[source] for source in self.netlist.gates[gate - self.inputs].sources]

    def sorted_text(self):
        """The netlist with the pins of each gate in the order of the nodes."""
        gates = [f"{gate.name} = {gate.kind}({', '.join(self.names[pin] for pin in sorted(self.sources_of(place)))})" for place, gate in enumerate(self.netlist.gates, self.inputs)]
        return "\n".join([f"INPUT({name})" for name in self.netlist.inputs] + gates) + "\n"

    def name_by_sorted_pins(self, word):
        """The name of a variable of that netlist here, if the wires of this network stand in the same order."""
        gate, is_wire, pin = word.removesuffix(")").partition("(")
        return self.names[self.first_wire[self.number[gate]] + int(pin) - 1] if is_wire else word

    def cone(self, node):
        """The variables on which a node depends, with itself. Who asks does not change the set."""
        if self._cone[0] != node:
            found, waiting = {node}, [node]
            while waiting:
                variable = waiting.pop()
                if variable >= self.inputs:
                    for read in (self.source[variable],) if variable >= self.nodes else self.wires(variable):
                        if read not in found:
                            found.add(read)
                            waiting.append(read)
            self._cone = node, found
        return self._cone[1]

    def looped(self):
        """The gates that depend on themselves."""
        return {self.number[name] for loop in self.netlist.loops() for name in loop}


def gate_value(kind, ones, pins):
    """The value of a gate of which some of its pins are 1."""
    connective = INVERTED.get(kind, kind)
    value = {"AND": ones == pins, "OR": ones > 0, "XOR": ones % 2 == 1, "BUFF": ones == 1}[connective]
    return int(value != (kind in INVERTED))


class Follower:
    """A state of a network under an input that stays. It begins at a start, and moves by steps."""

    def __init__(self, network, start, target):
        self.network = network
        nodes = [start[name] for name in network.netlist.nodes]
        self.value = nodes + [nodes[source] for source in network.source[network.nodes:]]
        self.target = [target[name] for name in network.netlist.inputs]
        self.ones = [0] * network.nodes
        for wire in range(network.nodes, len(self.value)):
            self.ones[network.gate[wire]] += self.value[wire]

    def is_unstable(self, variable):
        """Whether what drives a variable asks for another value."""
        network, value = self.network, self.value
        if variable >= network.nodes:
            return value[variable] != value[network.source[variable]]
        if variable < network.inputs:
            return value[variable] != self.target[variable]
        needed, ones = network.needed[variable], self.ones[variable]
        return value[variable] != (ones >= needed if needed else ones & 1) ^ network.inverted[variable]

    def flip(self, variable):
        """Changes one variable, whether it is unstable or not."""
        value = self.value[variable] = self.value[variable] ^ 1
        if variable >= self.network.nodes:
            self.ones[self.network.gate[variable]] += 1 if value else -1

    def move(self, step):
        """Makes a step of those of some variables that are unstable, and answers them."""
        if len(step) == 1:
            moved = step if self.is_unstable(step[0]) else []
        else:
            moved = [variable for variable in step if self.is_unstable(variable)]
        for variable in moved:
            self.flip(variable)
        return moved

    def flip_all(self, steps):
        """Changes the variables of some steps, whether they are unstable or not. The same steps once more, in any order, take that back."""
        value, ones, gate, nodes = self.value, self.ones, self.network.gate, self.network.nodes
        for step in steps:
            for variable in step:
                bit = value[variable] = value[variable] ^ 1
                if variable >= nodes:
                    ones[gate[variable]] += 1 if bit else -1

    def kept(self):
        """The state, to go back to."""
        return self.value[:], self.ones[:]

    def back_to(self, kept):
        """Goes back to a state that was kept, once."""
        self.value, self.ones = kept

    def unstable(self):
        """All variables that are unstable."""
        return [variable for variable in range(len(self.value)) if self.is_unstable(variable)]
