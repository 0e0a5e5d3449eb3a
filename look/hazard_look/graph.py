"""The page of a flow table: the states as a graph, each edge of which opens the change that it stands for."""
import argparse
import itertools

from . import page, start, table
from .errors import DONE, WRONG_WORDS, Failure
from .exploration import Totals
from .lines import spelt
from .program import file_of
from .script import NO_CHANGE

# The page has the first states, of their changes those that lead to another one or do not settle, and as many as so many reports have.
MOST_STATES, MOST_REPORTS = 300, 200


def run(words, out, circuit, found, assumed):
    """Writes the page of an exploration."""
    states, totals = {}, None
    for row in found.rows:
        if isinstance(row, Totals):
            totals = row
        elif row.number <= MOST_STATES:
            states[row.number] = row._replace(transitions=[one for one in row.transitions if one.unsettled or (one.target or MOST_STATES + 1) <= MOST_STATES])
    if not any(state.transitions for state in states.values()):
        raise Failure(f"{NO_CHANGE} that is possible in the start", WRONG_WORDS)
    listed, names = start.nodes_of(circuit), table.labelled(circuit)
    gathered = page.Changes(words, circuit)
    for trail in itertools.islice(trails(states), MOST_REPORTS):
        _note(words, gathered, states, (listed, assumed), trail)
    gathered.found.sort(key=lambda change: change["from"])
    part = "" if len(gathered.found) == totals.changes else f"; here {len(states)} states and {len(gathered.found)} changes"
    page.write(words, out, gathered, states=[table.label(state, names) for state in states.values()], counted=table.counted(totals) + part)
    return DONE


def trails(states):
    """Walks along the transitions, which have each once as a new one: each goes on where the one before it settles, also along transitions
    that are not new. A pair says of each whether it is."""
    left = {number: list(state.transitions[::-1]) for number, state in states.items()}
    for number in states:
        while left[number]:
            trail, at, way = [], number, []
            while way is not None:
                trail += [(one, False) for one in way]
                at = way[-1].target if way else at
                trail.append((left[at].pop(), True))
                at = _next(trail[-1][0])
                way = _way(states, left, at)
            yield trail


def _way(states, left, begin):
    """The fewest transitions from a state to one of which some are left; None if there are none."""
    ways = {begin: []} if begin else {}
    for at in (waiting := list(ways)):
        if left[at]:
            return ways[at]
        for one in states[at].transitions:
            if _next(one) and one.target not in ways:
                ways[one.target] = ways[at] + [one]
                waiting.append(one.target)
    return None


def _next(transition):
    """The state from which a walk goes on: a report ends if no run is known that keeps the orders."""
    return transition.target if transition.kept else None


def _note(words, gathered, states, stated, trail):
    """Notes the changes of a walk for the page, by one report on the script that it is. `stated`: what a script lists of a state, and what it
    assumes."""
    listed, assumed = stated
    lines = lambda state, bursts: "\n".join(table.script_of(listed, states[state], bursts, assumed))
    with file_of(lines(trail[0][0].state, [transition.burst for transition, _ in trail]) + "\n") as path:
        gathered.words = argparse.Namespace(**dict(vars(words), script=path))
        for (transition, is_new), change in zip(trail, words.program.edges(words.netlist, path).changes):
            if not is_new:
                continue
            end = f"to {transition.target}" if transition.target else "unsettled"
            gathered.note(change, title=f"{transition.state} {end},{spelt(transition.burst)}", burst=spelt(transition.burst)[1:],
                          script=lines(transition.state, [transition.burst]), **{"from": transition.state, "to": transition.target or 0})
