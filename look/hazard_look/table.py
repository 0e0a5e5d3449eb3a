"""The job `table`: the flow table of a circuit, with the states that bursts reach by rows and the bursts by columns."""
from collections import Counter
from typing import Dict, NamedTuple

from . import graph, script, start
from .circuit import load
from .errors import DOES_NOT_HOLD, DONE
from .exploration import MORE, Totals
from .lines import spelt
from .program import file_of
from .summary import MOST_LINES, NOT_KEPT

# Of more states the table has the first ones, unless all are asked for; and a row names no more nodes.
MOST_ROWS, MOST_LABELLED = 200, 16
LEGEND = "N: to state N, N!: with a hazard, (N): nothing changes, ?: unsettled, -: some input of the burst would not change"
UNDER = "[K]: of runs that keep assumption K of these"


class Burst(NamedTuple):
    """A column: inputs with the values that they get, and the line of the script that has them."""

    values: Dict[str, int]
    line: int

    def title(self):
        return spelt(self.values)[1:] or "nothing"


def run(words, out):
    """Writes the table of a netlist and a script, or the page of it."""
    with file_of(script.without_repeats(words.script)) as path:
        return _written(words, out, words.program.explore(words.netlist, path))


def _written(words, out, found):
    """Writes an exploration, and answers the status."""
    statements = script.must_have_no_edges(words.script)
    circuit = load(words.netlist)
    assumed = script.assumptions_of(statements)
    if words.page:
        return graph.run(words, out, circuit, found, assumed)
    teller = _Teller(words, circuit, _bursts(statements, circuit), assumed)
    for row in found.rows:
        for line in teller.end(row) if isinstance(row, Totals) else teller.state(row):
            out.write(line + "\n")
    return DOES_NOT_HOLD if words.fail and teller.told else DONE


def _bursts(statements, circuit):
    """The changes of a script, each once; or, if it has none, each input alone."""
    lines, found = {statement.keyword: statement.number for statement in statements}, {}
    for statement in statements:
        if statement.keyword == "change":
            found.setdefault(frozenset(statement.values.items()), Burst(statement.values, statement.number))
    return list(found.values()) or [Burst({name: bit}, lines["start"]) for name in circuit.inputs for bit in (0, 1)]


class _Teller:
    """Makes the rows of the table, and what is told of changes that are not clean."""

    def __init__(self, words, circuit, bursts, assumed):
        self.words, self.bursts, self.listed = words, bursts, start.nodes_of(circuit)
        self.labelled, self.assumed, self.uses = labelled(circuit), assumed, Counter()
        self.rows, self.left_out, self.findings, self.told = [["state"] + [burst.title() for burst in bursts]], 0, [], 0

    def state(self, state):
        """Takes up a state; answers the lines that are told at once."""
        made = list(_by_bursts(state.transitions, self.bursts))
        found = [(burst, transition) for burst, transition in made if transition and not transition.is_clean()]
        self.told += len(found)
        self.uses.update(number for _, transition in made if transition for number in transition.used)
        if self.words.fail:
            return [f"{self.words.script}:{burst.line}: state {label(state, self.labelled)}, {burst.title()}: {said(transition)}{self._under(transition)}" for burst, transition in found]
        if self.words.all or state.number <= MOST_ROWS:
            self.rows.append([label(state, self.labelled)] + [_cell(state, burst, transition) for burst, transition in made])
        else:
            self.left_out += 1
        if self.words.all or len(self.findings) < MOST_LINES:
            for burst, transition in found:
                lines = script_of(self.listed, state, [burst.values], self.assumed)
                self.findings.append([f"state {state.number}, {burst.title()}: {said(transition)}"] + [f"  {line}" for line in lines])
        return []

    def _under(self, transition):
        """What a change assumes, behind what is told of it."""
        return ", under " + ", ".join(self.assumed[number - 1] for number in transition.used) if transition.used else ""

    def _used(self):
        """The lines of the assumptions, with the changes that use each."""
        counts = [self.uses[number] for number in range(1, len(self.assumed) + 1)]
        lines = [f"  {number} {line}: in {count or 'no'} change{'' if count == 1 else 's'}" for number, (line, count) in enumerate(zip(self.assumed, counts), 1)]
        return [UNDER] + lines if lines else []

    def end(self, totals):
        """The lines behind the last state."""
        if not totals.is_whole:
            self.told += 1
        if self.words.fail:
            part = [] if totals.is_whole else [f"{self.words.script}:{self.bursts[0].line}: not all states were found, so there may be more"]
            return part + [f"{self.told} finding{'' if self.told == 1 else 's'}"]
        lines = _aligned(self.rows) + [LEGEND] + self._used()
        lines += [f".. and {self.left_out} states more, which --all has"] if self.left_out else []
        shown = self.findings if self.words.all else self.findings[:MOST_LINES]
        rest = self.told - len(shown) - (not totals.is_whole)
        lines += [""] * bool(shown) + [line for finding in shown for line in finding] + ([f".. and {rest} more, which --all has"] if rest else [])
        return lines + ["", counted(totals)]


def _by_bursts(transitions, bursts):
    """Each burst with its transition, or None if it does not apply. The transitions stand in the order of the bursts."""
    waiting = iter(transitions)
    transition = next(waiting, None)
    for burst in bursts:
        is_own = transition is not None and transition.burst == burst.values
        yield burst, transition if is_own else None
        transition = next(waiting, None) if is_own else transition


def labelled(circuit):
    """The nodes by which a state is known: those that tell it from others, and the outputs."""
    return list(dict.fromkeys(start.nodes_of(circuit) + circuit.outputs))


def label(state, nodes):
    """The number of a state, and the values of some nodes."""
    return f"{state.number}{spelt({name: state.values[name] for name in nodes[:MOST_LABELLED]})}" + (" .." if len(nodes) > MOST_LABELLED else "")


def _cell(state, burst, transition):
    """The entry of a state and a burst, which may not apply."""
    if transition is None:
        is_stable = all(state.values[name] == bit for name, bit in burst.values.items())
        return f"({state.number})" if is_stable else "-"
    under = f"[{','.join(map(str, transition.used))}]" if transition.used else ""
    if transition.unsettled:
        return f"?{under}"
    return f"{transition.target or MORE}{'' if transition.is_clean() else '!'}{under}"


def _aligned(rows):
    """Rows whose cells stand below each other."""
    widths = [max(len(row[at]) for row in rows) for at in range(len(rows[0]))]
    return ["  ".join(cell.ljust(width) for cell, width in zip(row, widths)).rstrip() for row in rows]


def said(transition):
    """What is told of a change that is not clean."""
    if transition.unsettled:
        told = [f"{transition.unsettled} is unsettled"]
    else:
        told = [f"{count} node{'' if count == 1 else 's'} {kind}" for kind, count in transition.hazards().items()]
    return ", ".join(told + ([] if transition.kept else [NOT_KEPT]))


def script_of(listed, state, bursts, assumed):
    """The lines of a script that starts in a state, with assumptions, and makes bursts."""
    return ["start" + spelt({name: state.values[name] for name in listed})] + assumed + [f"change{spelt(values)}" for values in bursts]


def counted(totals):
    """The last line."""
    states = f"{totals.states} state{'' if totals.states == 1 else 's'}" if totals.is_whole else f"the first {totals.states} states, of more"
    return f"{states}; {totals.changes} changes: {totals.clean} clean, {totals.hazards} with hazards, {totals.unsettled} unsettled"
