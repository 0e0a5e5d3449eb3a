"""Delays that make a run happen: which paths have to be slower than which, so that a node does what it does in the run.

Each input, gate and wire has one delay. A change of a variable comes at the latest one delay after the last pin of a cube that asks for it,
and at the earliest one delay after the first pin of the cube that held it. So the time of a change has bounds, which are sums of delays
along paths from the inputs: it is no later than the slowest path of some, and no earlier than the fastest of some others. The run happens
if each pin of a cube waits until the cube has done its work: if the slowest path to the one is faster than the fastest to the other.
"""
from collections import Counter
from typing import NamedTuple

# More paths than so many, of one bound, are not followed.
MOST_PATHS = 64


class Comparison(NamedTuple):
    """Two paths, each as the variables that the other one does not have: the early one has to be faster."""

    early: tuple
    late: tuple


class TooMany(Exception):
    """The paths are too many to be told."""


class _Bounds:
    """The changes that a run needs, and the bounds of their times. A change is a variable and its number."""

    def __init__(self, history):
        self.history, self.network = history, history.network
        # of each change that is needed the changes that bring it about; of each that has to wait those that it waits for
        self.causes, self.guards, self.pairs = {}, {}, {}

    def need(self, waiting):
        """Finds what some changes need and what keeps others back. Each is a change, and whether it has to wait."""
        while waiting:
            change, has_to_wait = waiting.pop()
            if change not in (self.guards if has_to_wait else self.causes):
                waiting += self._held(*change) if has_to_wait else self._caused(*change)

    def _caused(self, variable, change):
        """Notes the cube of a change; answers what it needs and what has to wait."""
        causes = self.causes[variable, change] = []
        if self.network.is_input(variable):
            return []
        cube = self.history.cube(variable, self.history.fired(variable, change), self.history.value(variable, change))
        causes += [one for one in cube if one[1]]
        return self._must_wait([(variable, change)], cube) + [(one, False) for one in causes]

    def _held(self, variable, change):
        """Notes what keeps a variable from a change; answers what that needs and what has to wait."""
        guards = self.guards[variable, change] = []
        if self.network.is_input(variable) or not self.history.may_move(variable):
            return []
        cubes, found = self.history.cubes(variable, change - 1), []
        for cube, following in zip(cubes, cubes[1:]):
            begun = [one for one in following if one[1]]
            found += self._must_wait(begun, cube) + [(one, False) for one in begun]
        guards += [(pin, phase + 1) for pin, phase in cubes[-1]]
        return found + [(one, True) for one in guards] + ([((variable, change - 1), False)] if change > 1 else [])

    def _must_wait(self, changes, cube):
        """Notes that no pin of a cube leaves its phase before some changes."""
        for pin, phase in cube:
            for change in changes:
                self.pairs[change, (pin, phase + 1)] = None
        return [((pin, phase + 1), True) for pin, phase in cube]

    def comes_at_all(self):
        """Those of the changes that have to wait which come some time: what holds the others is never broken."""
        readers = {}
        for change, guards in self.guards.items():
            for guard in guards:
                readers.setdefault(guard, []).append(change)
        found = {change for change in self.guards if self._is_first(change)}
        waiting = list(found)
        while waiting:
            for reader in readers.get(waiting.pop(), ()):
                if reader not in found:
                    found.add(reader)
                    waiting.append(reader)
        return found

    def _is_first(self, change):
        """Whether a change is that of an input, which nothing brings about."""
        variable, number = change
        return self.network.is_input(variable) and number == 1 and variable in self.history.moving

    def paths(self, change, backwards, among):
        """The paths to a change, each a list of variables, by those of `backwards` alone that are `among` some."""
        found, open_ = [], [([change[0]], change, {change})]
        while open_:
            path, last, seen = open_.pop()
            sources = [last]
            while len(sources) == 1 and not self.network.is_input(last[0]):
                sources = [one for one in backwards[last] if one in among and one not in seen]
                if len(sources) == 1:
                    last = sources[0]
                    path.append(last[0])
                    seen.add(last)
            if self.network.is_input(last[0]):
                found.append(path)
            else:
                open_ += [(path + [one[0]], one, seen | {one}) for one in sources]
            if len(found) + len(open_) > MOST_PATHS:
                raise TooMany
        return found


def conditions(history, node, changes, for_ever=False):
    """The comparisons under which a node makes some changes, by their numbers; `for_ever`: and then no other one. None if there are
    no such comparisons, TooMany if they can't be told."""
    bounds = _Bounds(history)
    bounds.need([((node, change), False) for change in changes] + [((node, (changes or [0])[-1] + 1), True)] * for_ever)
    late = bounds.comes_at_all()
    if for_ever and (node, (changes or [0])[-1] + 1) in late:
        return None
    found = {}
    for first, second in bounds.pairs:
        if second not in late:
            continue
        for one in bounds.paths(first, bounds.causes, bounds.causes):
            for other in bounds.paths(second, bounds.guards, late):
                compared = _compared(one, other)
                if not compared.late:
                    return None
                if compared.early:
                    found[compared] = None
                if len(found) > MOST_PATHS ** 2:
                    raise TooMany
    return _without_weaker(list(found))


def _compared(early, late):
    """Two paths without what both have, in the order from the input on."""
    return Comparison(_rest(early, late), _rest(late, early))


def _rest(path, other):
    """The variables of a path that another one does not have as often, from the input on."""
    left, kept = Counter(other), []
    for variable in path:
        if left[variable]:
            left[variable] -= 1
        else:
            kept.append(variable)
    return tuple(reversed(kept))


def _without_weaker(found):
    """Comparisons without those that follow from another one, the longest first."""
    counted = [(one, Counter(one.early), Counter(one.late)) for one in found]
    kept = []
    for one, early, late in counted:
        others = ((other, more, less) for other, more, less in counted if other is not one)
        if not any(early <= more and less <= late and ((early, late) != (more, less) or found.index(other) < found.index(one)) for other, more, less in others):
            kept.append(one)
    return sorted(kept, key=lambda one: (-len(one.early), one.early, one.late))
