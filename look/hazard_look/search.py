"""Runs of one change that show something: that of the report, or one under random delays, and then cut short.

A run is here a list of steps, each a list of variable numbers. What is found is shown only after `hazard replay` accepted it.
"""
import heapq
import random
from itertools import chain
from typing import NamedTuple

from . import runtext
from .history import History
from .kept import Keeper
from .network import Follower

# Limits of the work, in changes of single variables: of all random runs of a search, and of all attempts to cut a run.
MOST_SEARCHED = 300_000
MOST_CUT = 1_000_000
MOST_RUNS = 400
# Runs of more steps are not cut by trials.
MOST_TRIED = 2_000
# After so many random runs a node that can end at either value has short runs to both.
ENOUGH_RUNS = 50


class Edges:
    """The goal of a run in which a variable changes so often."""

    def __init__(self, variable, count):
        self.variable, self.count, self.left = variable, count, count

    def begin(self):
        self.left = self.count

    def is_reached(self, step, _):
        self.left -= self.variable in step
        return self.left <= 0


class Values:
    """The goal of a run that reaches a state with some values."""

    def __init__(self, network, values):
        self.values = [(network.number[name], bit) for name, bit in values.items()]

    def begin(self):
        """There is nothing to count."""

    def is_reached(self, _, follower):
        return all(follower.value[variable] == bit for variable, bit in self.values)


class Ending(NamedTuple):
    """A run to a state of rest, and the values there."""

    steps: list
    value: list


class Searcher:
    """Looks for runs of a change, which is given by the lines of the run text in its report. They keep the orders that it uses."""

    def __init__(self, network, lines, used=()):
        self.network, self.lines, self.text = network, lines, runtext.head(lines)
        self.used, self.keeper = used, Keeper(network, used)
        self.follower = Follower(network, self.text.start, self.text.target)

    def printed(self):
        """The run of the report."""
        run, = runtext.read(self.lines).runs
        return [[self.network.number[name] for name in step] for step in run.lead]

    def named(self, steps):
        """Steps with the names of their variables, as a run text has them."""
        return [[self.network.names[variable] for variable in step] for step in steps]

    def find(self, goal, cone):
        """A run that reaches a goal, as short as cuts make it, or None if none is found. The goal speaks of a cone alone."""
        for steps in chain([self.printed()], self._random_runs(cone)):
            found = play(self.follower, ([variable for variable in step if variable in cone] for step in steps), goal)
            if found is not None and self.keeper.keeps(found):
                return shorten(self.follower, found, goal, self.keeper)
        return None

    def edges(self, node, count, moving):
        """The run of the report up to a change of a node, cut to what this change needs. `moving` has the nodes that may move at all."""
        cone = self.network.cone(node)
        steps = _to_edge([[variable] for step in self.printed() for variable in step if variable in cone], node, count)
        kept = sliced(History(self.follower, steps, moving), steps, node, count)
        steps = kept if is_run(self.follower, kept) and self.keeper.keeps(kept) else steps
        return shorten(self.follower, steps, Edges(node, count), self.keeper) if len(steps) < MOST_TRIED else steps

    def _random_runs(self, cone):
        """Runs under random delays, the same ones at each call."""
        chance, left = random.Random(1), MOST_SEARCHED
        for _ in range(MOST_RUNS):
            steps = self.delayed(chance, cone)
            yield steps
            left -= len(steps) + len(cone)
            if left < 0:
                return

    def delayed(self, chance, cone):
        """A run under delays by chance, between 1 and 1000, up to a state of rest or to a number of changes. It changes
        variables of a cone alone."""
        follower, steps, due, made, waiting = self.follower, [], {}, {}, {}
        delay = {variable: 10 ** chance.uniform(0, 3) for variable in sorted(cone)}
        queue = []

        def look_at(variable, now):
            if variable not in cone or not follower.is_unstable(variable):
                due.pop(variable, None)
            elif variable not in due:
                due[variable] = now + delay[variable]
                heapq.heappush(queue, (due[variable], variable))

        for variable in range(self.network.inputs):
            look_at(variable, 0)
        while queue and len(steps) < 2 * len(cone) + 50:
            now, variable = heapq.heappop(queue)
            if due.get(variable) != now:
                continue
            del due[variable]
            first = self.keeper.held_by(variable, made)
            if first is not None:
                waiting.setdefault(first, []).append(variable)
                continue
            follower.flip(variable)
            steps.append([variable])
            self.keeper.note([variable], made)
            for reader in self.network.readers(variable) + waiting.pop(variable, []):
                look_at(reader, now)
        follower.flip_all(steps)
        return steps

    def endings(self, node):
        """For each value with which a node can end at rest, the shortest run there that is found."""
        everything, found = range(len(self.network.names)), {}
        for number, steps in enumerate(self._random_runs(everything)):
            if len(found) == 2 and number >= ENOUGH_RUNS:
                break
            for step in steps:
                self.follower.move(step)
            bit, rests = self.follower.value[node], not self.follower.unstable()
            self.follower.flip_all(steps)
            if rests and (bit not in found or len(steps) < len(found[bit])):
                found[bit] = steps
        return found

    def turning(self, node):
        """A lead and a cycle in which a node changes and in which all variables move as soon as they are unstable and the orders let
        them, so none waits all around; None if that run settles, or keeps the node, or if an order keeps a variable back for ever."""
        steps, seen, values, made, held = [], {}, [], {}, []
        while len(steps) * len(self.network.names) < MOST_SEARCHED:
            state = bytes(self.follower.value), self.keeper.counts(made)
            if state in seen:
                break
            seen[state] = len(steps)
            values.append(self.follower.value[node])
            unstable = self.follower.unstable()
            steps.append(self.keeper.free(unstable, made))
            held.append(len(steps[-1]) < len(unstable))
            self.keeper.note(steps[-1], made)
            self.follower.move(steps[-1])
        begin = seen.get((bytes(self.follower.value), self.keeper.counts(made)))
        self.follower.flip_all(steps)
        if begin is None or len(set(values[begin:])) < 2 or any(held[begin:]):
            return None
        return steps[:begin], steps[begin:]


def _to_edge(steps, node, count):
    """Single changes up to one of a node."""
    places = [place for place, (variable,) in enumerate(steps) if variable == node]
    return steps[:places[count - 1] + 1]


def sliced(history, steps, node, count):
    """The changes of a run without those that no change of a node needs, up to one by its number: first what its first change needs, then
    what the next one needs besides, and so on."""
    made, parts, needed = {}, [[] for _ in range(count)], [_needed(history, node, change) for change in range(1, count + 1)]
    for step in steps:
        variable, = step
        made[variable] = made.get(variable, 0) + 1
        at = next((at for at, kept in enumerate(needed) if made[variable] <= kept.get(variable, 0)), None)
        if at is not None:
            parts[at].append(step)
    return [step for part in parts for step in part]


def _needed(history, node, change):
    """How many changes of each variable a change of a node needs."""
    fires, value, inputs = history.fires, history.value, history.network.inputs
    waiting, kept = [(node, change)], {}
    while waiting:
        variable, changes = waiting.pop()
        before = kept.get(variable, 0)
        if changes > before:
            kept[variable] = changes
            for change in range(before + 1, changes + 1) if variable >= inputs else ():
                waiting += [one for one in history.cube(variable, fires[variable][change - 1], value(variable, change)) if one[1]]
    return kept


def is_run(follower, steps):
    """Whether each of some single changes is one of an unstable variable; the follower is where it was."""
    kept, made = follower.kept(), 0
    for (variable,) in steps:
        if not follower.is_unstable(variable):
            break
        follower.flip(variable)
        made += 1
    follower.back_to(kept)
    return made == len(steps)


def play(follower, steps, goal):
    """Makes of each step what is unstable, until a goal is reached. Answers the steps that were made, or None if it is not
    reached; the follower is where it was."""
    made = []
    goal.begin()
    reached = goal.is_reached([], follower)
    for step in steps:
        if reached:
            break
        moved = follower.move(step)
        if moved:
            made.append(moved)
            reached = goal.is_reached(moved, follower)
    follower.flip_all(made)
    return made if reached else None


def shorten(follower, steps, goal, keeper):
    """Cuts a run that reaches a goal, and still keeps the orders. A cut takes some changes away, and with them all later ones that fail without them. The
    cuts become smaller and smaller, down to a single change."""
    best, size, left = steps, sum(map(len, steps)), MOST_CUT
    piece = size // 2
    while piece > 0:
        begun, at = size, size - piece
        while at > -piece and left > 0:
            cut = play(follower, _without(best, max(at, 0), at + piece), goal)
            left -= size
            if cut is not None and keeper.keeps(cut):
                best, size = cut, sum(map(len, cut))
            at = min(at, size) - piece
        if piece > 1 or size == begun or left <= 0:
            piece //= 2
    return best


def _without(steps, begin, end):
    """Steps without their changes from one place to another."""
    at = 0
    for step in steps:
        yield [variable for place, variable in enumerate(step, at) if not begin <= place < end]
        at += len(step)
