"""Runs that keep orders: of each order the second wire does not make its change of a number before the first has changed.

`hazard replay` knows no orders, so a run under them is shown only if it keeps them by what is counted here.
"""


class Keeper:
    """Some orders of a network, which a run keeps or breaks. `made` has how often variables have changed so far."""

    def __init__(self, network, used):
        self.of_second, self.most = {}, {}
        for order in used:
            first, second = network.number[order.first], network.number[order.second]
            self.of_second.setdefault(second, []).append((first, order.number))
            self.most[first] = max(self.most.get(first, 0), 1)
            self.most[second] = max(self.most.get(second, 0), order.number)

    def held_by(self, variable, made):
        """The wire that has to change before a variable may change once more; None if it may."""
        for first, number in self.of_second.get(variable, ()):
            if made.get(variable, 0) + 1 >= number and not made.get(first):
                return first
        return None

    def free(self, step, made):
        """Those of some variables that may change at once."""
        kept, is_less = list(step), bool(self.of_second)
        while is_less:
            within = set(kept)
            step, kept = kept, [variable for variable in kept if self._is_free(variable, made, within)]
            is_less = len(kept) < len(step)
        return kept

    def _is_free(self, variable, made, within):
        return all(made.get(variable, 0) + 1 < number or made.get(first) or first in within for first, number in self.of_second.get(variable, ()))

    def note(self, step, made):
        """Counts the changes of a step, of those variables alone that matter."""
        for variable in step:
            if variable in self.most:
                made[variable] = made.get(variable, 0) + 1

    def counts(self, made):
        """What of the counts decides about the rest of a run."""
        return tuple(min(made.get(variable, 0), most) for variable, most in self.most.items())

    def keeps(self, steps):
        """Whether a run keeps all orders."""
        made = {}
        for step in steps if self.most else ():
            if len(self.free(step, made)) < len(step):
                return False
            self.note(step, made)
        return True
