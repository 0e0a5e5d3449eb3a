"""The values of a circuit at rest, change by change, by letting one gate change after the other, without the wires.

A report has to confirm them. If each node of a change settles, all orders lead to the same values, and this one too.
"""
from collections import deque

from .network import gate_value

# So many changes of a gate, on average, are an oscillation.
_MOST_TURNS = 200


class Resting:
    """The values of all nodes, at rest but for what oscillates."""

    def __init__(self, circuit, start):
        self.gate_of, self.readers, self.value = circuit.gate_of, circuit.readers(), dict(start)
        self.goes_round = False

    def after(self, assigned):
        """Makes a change of inputs. Answers the nodes that have another value then. What follows an oscillation is not made."""
        if self.goes_round:
            return {}
        before, waiting, queued = {}, deque(), set()
        left = _MOST_TURNS * (len(self.gate_of) + 1)
        for name, bit in assigned.items():
            self._set(name, bit, before, waiting, queued)
        while waiting and left > 0:
            name = waiting.popleft()
            queued.discard(name)
            gate = self.gate_of[name]
            bit = gate_value(gate.kind, sum(self.value[source] for source in gate.sources), len(gate.sources))
            self._set(name, bit, before, waiting, queued)
            left -= 1
        self.goes_round = bool(waiting)
        return {name: self.value[name] for name, bit in before.items() if self.value[name] != bit}

    def _set(self, name, bit, before, waiting, queued):
        """Gives a node a value, and puts its readers in line if the value is another one."""
        if self.value[name] == bit:
            return
        before.setdefault(name, self.value[name])
        self.value[name] = bit
        for reader in self.readers[name]:
            if reader not in queued:
                queued.add(reader)
                waiting.append(reader)
