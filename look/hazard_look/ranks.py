"""When each variable can move first in a change, and by which path; and which value it has in the end.

These are the rounds of Algorithm A and the result of Algorithm B. They only propose: what is said of an order stands in a report.
"""


class Ranks:
    """The variables that can move in a change, each with the round in which it can do so first, and what brings it about."""

    def __init__(self, network, rows):
        self.network = network
        nodes = [int(row.start) for row in rows.values()]
        self.start = nodes + [nodes[source] for source in network.source[network.nodes:]]
        self.target = {node: int(row.end) for node, row in enumerate(rows.values()) if node < network.inputs}
        self.round, self.cause = {}, {}
        self._spread()
        self.end = self._ends()

    def _spread(self):
        """The rounds, one after the other."""
        number, level, held = 1, {node: None for node, bit in self.target.items() if bit != self.start[node]}, {}
        while level:
            self.round.update(dict.fromkeys(level, number))
            self.cause.update(level)
            following = {}
            for variable in level:
                for reader in self.network.readers(variable):
                    if reader not in self.round and reader not in following and self._leaves(reader, variable, held):
                        following[reader] = variable
            number, level = number + 1, following

    def _leaves(self, reader, variable, held):
        """Whether a variable can move once another one does, which it reads: no pin that does not move holds it."""
        control = self.network.control(reader, self.start[reader])
        if control is None:
            return True
        if self.start[variable] == control:
            if reader not in held:
                held[reader] = sum(self.start[wire] == control for wire in self.network.wires(reader))
            held[reader] -= 1
        return held.get(reader) == 0

    def _ends(self):
        """The value of each variable in the end, None if that is not decided."""
        network, end = self.network, list(self.start)
        unknown, ones = {}, {}
        for variable in self.round:
            end[variable] = self.target.get(variable)
        for gate in self.round:
            if not network.is_input(gate) and not network.is_wire(gate):
                pins = [end[wire] for wire in network.wires(gate)]
                unknown[gate], ones[gate] = pins.count(None), pins.count(1)
        waiting = [reader for variable in self.round for reader in [variable] + network.readers(variable)]
        while waiting:
            variable = waiting.pop()
            bit = None if end[variable] is not None else self._asked(variable, end, unknown, ones)
            if bit is None:
                continue
            end[variable] = bit
            readers = network.readers(variable)
            if network.is_wire(variable) and readers[0] in unknown:
                unknown[readers[0]] -= 1
                ones[readers[0]] += bit
            waiting += readers
        return end

    def _asked(self, variable, end, unknown, ones):
        """What a variable is asked for whatever the unknown ones are, or None."""
        if self.network.is_wire(variable):
            return end[self.network.source[variable]]
        least = self.network.asks(variable, ones[variable])
        if not unknown[variable] or self.network.needed[variable] and self.network.asks(variable, ones[variable] + unknown[variable]) == least:
            return least
        return None

    def must_leave(self, wire):
        """Whether a wire must change: its source ends with another value."""
        source = self.network.source[wire]
        return self.end[source] is not None and self.end[source] != self.start[source]

    def path(self, variable):
        """The variables by which one moves first, from an input on to itself."""
        found = []
        while variable is not None:
            found.append(variable)
            variable = self.cause[variable]
        return found[::-1]

    def paths(self, early, late):
        """The paths to two variables, from where they part. Of the paths on which the later one moves first, one that parts last."""
        first = self.path(early)
        second = self._path_along(first, late)
        common = 0
        while common < min(len(first), len(second)) - 1 and first[common] == second[common]:
            common += 1
        return first[common:], second[common:]

    def _path_along(self, first, late):
        """A path by which a variable moves first, as far along another path as it goes."""
        onward, level = {late: None}, [late]
        while level:
            shared = next((variable for variable in level if variable in first), None)
            if shared is not None:
                path = first[:first.index(shared)]
                while shared is not None:
                    path.append(shared)
                    shared = onward[shared]
                return path
            before = [(cause, variable) for variable in level for cause in self._causes(variable)]
            for cause, variable in before:
                onward.setdefault(cause, variable)
            level = list(dict.fromkeys(cause for cause, _ in before))
        return self.path(late)

    def _causes(self, variable):
        """What a variable reads that moves in the round before, and without which it would be held."""
        pins = self.network.reads(variable)
        control = self.network.control(variable, self.start[variable])
        held = any(self.start[pin] == control for pin in pins)
        return [pin for pin in pins if self.round.get(pin) == self.round[variable] - 1 and (not held or self.start[pin] == control)]
