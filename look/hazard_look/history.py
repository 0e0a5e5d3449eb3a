"""A run as the history of each variable: when it changes, and which pins hold its value in the meantime.

The k-th *phase* of a variable begins with its k-th change; phase 0 is its start. A *cube* of a gate is a set of pins whose values alone
decide the gate's value: one pin if its value controls the gate, as a 0 of an AND, and else all pins.
"""
from bisect import bisect_left

# behind the last step of a run
END = 1 << 60


class History:
    """A run, of single changes one after the other, as the history of the variables of a network. `moving` has the nodes that may
    move at all."""

    def __init__(self, follower, steps, moving):
        self.network, self.start, self.moving, self.fires = follower.network, list(follower.value), moving, {}
        for place, variable in enumerate(variable for step in steps for variable in step):
            self.fires.setdefault(variable, []).append(place)

    def phase(self, variable, place):
        """The phase in which a variable is before a place of the run."""
        told = self.fires.get(variable)
        return bisect_left(told, place) if told else 0

    def value(self, variable, phase):
        return self.start[variable] ^ (phase & 1)

    def fired(self, variable, change):
        """The place of a change of a variable, which is counted from 1; END if it is not in the run."""
        told = self.fires.get(variable, ())
        return told[change - 1] if change <= len(told) else END

    def pins(self, variable, place):
        """The pins of a gate or a wire before a place, each with its phase."""
        return [(pin, self.phase(pin, place)) for pin in self.network.reads(variable)]

    def is_held(self, variable, pins, bit):
        """Whether pins in some phases ask for a value of a gate or a wire."""
        ones = sum(self.value(pin, phase) for pin, phase in pins)
        return self.network.asks(variable, ones) == bit

    def cube(self, variable, place, bit):
        """The cube that lasts longest of those that ask for a value before a place; None if there is none. It does not depend on the
        order of the pins."""
        if self.network.is_wire(variable):
            source = self.network.source[variable]
            phase = self.phase(source, place)
            return [(source, phase)] if self.value(source, phase) == bit else None
        pins = self.pins(variable, place)
        if not self.is_held(variable, pins, bit):
            return None
        control = self.network.control(variable, bit)
        if control is None:
            return pins
        deciding = [(pin, phase) for pin, phase in pins if self.value(pin, phase) == control]
        return [min(deciding, key=self._rank)]

    def _rank(self, one):
        """Less for a pin that is better in a cube: one that keeps its phase longer, that can't move, and that got it earlier."""
        pin, phase = one
        return -self.fired(pin, phase + 1), self.may_move(pin), self.fired(pin, phase) if phase else -1, pin

    def may_move(self, variable):
        """Whether a variable changes in any run."""
        return (self.network.source[variable] if self.network.is_wire(variable) else variable) in self.moving

    def broken(self, cube):
        """The place at which the first pin of a cube changes."""
        return min(self.fired(pin, phase + 1) for pin, phase in cube)

    def cubes(self, variable, change):
        """The cubes that hold the value of a variable from a change of it up to the next one, each lasting into the next: the first
        as the variable gets the value. Behind the last one the variable is unstable, unless that lasts to the end of the run."""
        bit = self.value(variable, change)
        found = [self.cube(variable, self.fired(variable, change) if change else 0, bit)]
        while self.broken(found[-1]) < self.fired(variable, change + 1):
            following = self.cube(variable, self.broken(found[-1]) + 1, bit)
            if following is None:
                break
            found.append(following)
        return found
