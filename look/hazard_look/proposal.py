"""A search for few orders of wires, and wires without delay, under which hazards go. Each step is a report of `hazard edges`."""
from typing import NamedTuple, Optional, Tuple

from . import script, sentence
from .errors import read_file
from .lines import spelt
from .moves import is_clean
from .network import Network
from .ranks import Ranks
from .summary import roots

# The reports of a search: those that look for more, and all of them; and those that it makes of a large circuit too, if all reports together
# have more rows than so many.
MOST_ROUNDS, MOST_CALLS, FEW_CALLS, MOST_ROWS = 40, 160, 20, 20_000_000
# In a circuit of more nodes no order is looked for that mends one node; for one there are so many reports, and so many orders of a gate are
# tried one by one.
MOST_MENDED, MOST_ASKED, MOST_OTHERS = 20_000, 80, 12
# A script states no more orders and no more wires without delay.
MOST_ORDERS, MOST_IDEALS = 1000, 256


class Assumption(NamedTuple):
    """An order of two wires, or, without a second one, a wire without delay; the ranks of a change in which it may help, with the numbers of
    its first wire and of the one that has to wait; and what it looks like: the same at a place in parts of a circuit that are alike."""

    first: str
    second: Optional[str]
    ranks: Ranks
    wires: Tuple[int, int]
    likeness: tuple

    def line(self):
        """The statement of a script."""
        return f"ideal {self.first}" if self.second is None else f"order {self.first} {self.second}"

    def key(self):
        return self.first, self.second

    def paths(self):
        """The paths to both wires, from where they part."""
        return self.ranks.paths(*self.wires)

    def told(self):
        """What it assumes, as a sentence of paths."""
        compared = sentence.no_later(self.ranks.network, *self.paths())
        return compared if self.second is not None else f"wire {self.first} without delay; so {compared.removeprefix('wire ')}"

    def is_natural(self, ranks):
        """Whether it does not turn around how two wires move in a change that uses it."""
        first, second = self.wires
        return not (first in ranks.round and second in ranks.round and ranks.must_leave(first)) or ranks.round[first] <= ranks.round[second]


def candidates(circuit, ranks, names, is_ideal=False):
    """What may be assumed at some gates that have a hazard in a change. Of an order the first wire must move, in an earlier round than the
    second one may; if it need not, the wire may be one without delay."""
    network = ranks.network
    for gate in map(network.number.get, names):
        wires = [wire for wire in network.wires(gate) if wire in ranks.round]
        for first in wires:
            later = [wire for wire in wires if ranks.round[first] < ranks.round[wire]]
            if later and ranks.must_leave(first) != is_ideal:
                for second in [min(later, key=ranks.round.get)] if is_ideal else later:
                    likeness = (circuit.gates[gate - network.inputs].kind, len(network.wires(gate)), first - wires[0], second - wires[0], *map(ranks.start.__getitem__, (first, second, gate)))
                    yield Assumption(network.names[first], None if is_ideal else network.names[second], ranks, (first, second), likeness)


def _hazards(circuit, change, at_roots):
    """The gates that have a hazard in a change, or the roots of these alone."""
    names = [row.name for row in change.rows.values() if not is_clean(row) and row.name in circuit.gate_of]
    found = roots(circuit, names) if at_roots else set(names)
    return [name for name in names if name in found]


class Mender:
    """Looks for orders that make a node clean in a change. `hazard edges` is asked of each that is told."""

    def __init__(self, words, circuit, network, change, node):
        self.words, self.node, self.network, self.calls, self.mended = words, node, network, 0, {}
        self.ranks, cone = Ranks(network, change.rows), network.cone(network.number[node])
        self.roots, self.names = ([name for name in _hazards(circuit, change, at_roots) if network.number[name] in cone] for at_roots in (True, False))
        given = [statement for statement in script.read(words.script) if statement.keyword in script.ASSUMING]
        self.stated, self.rooms = _stated(given), (MOST_ORDERS - len(given), MOST_IDEALS - len(given))
        self.before = [f"start{spelt({row.name: row.start for row in change.rows.values()})}"] + script.assumptions_of(given)
        self.after, self.circuit = f"change{spelt(change.assigned)}", circuit

    def found(self):
        """Assumptions of which each alone is enough: all orders of one gate that are; or, in a list of one list, some that are enough together,
        and none of which can go. An empty list if none are found. What may well be so is looked for first."""
        for block in self._blocks():
            if self._mends(block):
                least = self._least(block, [])
                if len(least) > 1:
                    return [least] if self._mends(least, True) else []
                return [least] + self._alone(self.network.gate[least[0].wires[0]], least)
        gates = [self.network.number[name] for name in dict.fromkeys(self.roots + self.names)]
        return next(filter(None, (self._alone(gate, []) for gate in gates[:MOST_OTHERS])), [])

    def _blocks(self):
        """What may be assumed, more and more of it: orders at the roots, at all gates with a hazard, and wires without delay besides."""
        names, block = self.roots + self.names, []
        for some, is_ideal in ((self.roots, False), (names, False), (names, True)):
            wider = (block if is_ideal else []) + self._candidates(some, is_ideal)
            if len(wider) > len(block):
                block = wider
                yield block

    def _candidates(self, names, is_ideal):
        found = {}
        for one in candidates(self.circuit, self.ranks, dict.fromkeys(names), is_ideal):
            if one.key() not in self.stated:
                found.setdefault(one.key(), one)
        return list(found.values())[:max(0, self.rooms[is_ideal])]

    def _alone(self, gate, known):
        """The orders of two wires of a gate that are enough alone, besides those that are known: of many wires the first are tried. The first
        wire of each is sure to move, or else `hazard edges` uses no order."""
        names, wires = self.network.names, [wire for wire in self.network.wires(gate) if wire in self.ranks.round]
        pairs = [(first, second) for first in wires for second in wires if first != second and self.ranks.must_leave(first)]
        made = (Assumption(names[first], names[second], self.ranks, (first, second), ()) for first, second in pairs[:MOST_OTHERS])
        keys = self.stated.union(one.key() for one in known)
        return [[one] for one in made if one.key() not in keys and self._mends([one])]

    def _mends(self, block, is_sure=False):
        """Whether the node is clean under some assumptions. After many calls that is no longer asked, unless it has to be sure."""
        self.calls += 1
        if self.calls > MOST_ASKED and not is_sure:
            return False
        text = "\n".join([*self.before, *(one.line() for one in block), self.after, ""])
        change, = self.words.program.edges_of_text(self.words.netlist, text)
        if not change.kept or not is_clean(change.rows[self.node]):
            return False
        self.mended[tuple(one.key() for one in block)] = change.rows[self.node]
        return True

    def row(self, block):
        """The row of the node under assumptions that were found."""
        return self.mended[tuple(one.key() for one in block)]

    def _least(self, block, rest):
        """Those of a block which are needed besides the rest: with all of it the node is clean, with the rest alone it is not."""
        if len(block) == 1:
            return block
        one, other = block[:len(block) // 2], block[len(block) // 2:]
        for half in (one, other):
            if self._mends(rest + half):
                return self._least(half, rest)
        found = self._least(one, rest + other)
        return found + self._least(other, rest + found)


def _stated(statements):
    """The keys of what a script assumes."""
    orders = {tuple(statement.assumed[:2]) for statement in statements if statement.keyword == "order" and int((statement.assumed + ["1"])[2]) == 1}
    return orders | {(statement.assumed[0], None) for statement in statements if statement.keyword == "ideal"}


class Proposal:
    """The search for a netlist and a script. Of the reports without and with what is chosen it keeps the rows."""

    def __init__(self, words, circuit, statements, changes):
        self.words, self.circuit, self.statements = words, circuit, statements
        self.network, self.text = Network(circuit), read_file(words.script)
        self.place = script.place_of_assumptions(statements)
        self.given = [statement for statement in statements if statement.keyword in script.ASSUMING]
        self.rows = len(circuit.nodes) * sum(statement.keyword == "change" for statement in statements)
        self.calls, self.is_cut, self.chosen = 1, False, []
        self.before = self.after = [change._replace(run_lines=[]) for change in changes]

    def search(self):
        """Finds what is proposed: first enough, and then what is needed of that."""
        self._gather()
        if self.worth(self.after) < self.worth(self.before):
            self._thinned()
        else:
            self.chosen, self.after = [], self.before
        self.chosen.sort(key=lambda one: one.wires)

    def uses(self, one):
        """The numbers of the changes that use an assumption, and in which its second wire can move: else each run keeps it."""
        second = self.network.number[one.second or one.first]
        used = [change for change in self.after if any(each.first == one.first and one.second in (None, each.second) for each in change.used)]
        return [change.number for change, ranks in zip(used, self._ranks(used)) if one.second is None or second in ranks.round]

    def report(self, chosen):
        """The changes under what is chosen, without their runs."""
        self.calls += 1
        text = script.with_lines(self.text, self.place, [one.line() for one in chosen])
        return [change._replace(run_lines=[]) for change in self.words.program.edges_of_text(self.words.netlist, text)]

    def worth(self, changes):
        """How much is wrong: the hazards; a change that is not analysed counts more, and one in which no run is known to keep the orders."""
        nodes = len(self.circuit.nodes)
        return sum(nodes + 1 if change.stopped else nodes if not change.kept else sum(not is_clean(row) for row in change.rows.values()) for change in changes)

    def _ranks(self, changes):
        return [Ranks(self.network, change.rows) for change in changes if change.rows]

    def _gather(self):
        """Adds assumptions as long as there are hazards and new ones: at roots first, and orders before wires without delay."""
        tried = _stated(self.given)
        while self.worth(self.after) and self.calls <= MOST_ROUNDS:
            new = self._next(tried)
            tried.update(one.key() for one in new)
            if not new:
                break
            after = self.report(self.chosen + new)
            if self.worth(after) <= self.worth(self.after):
                self.after = after
                self.chosen += new

    def _next(self, tried):
        """What may be assumed besides, of the first of four kinds of which there is something."""
        changes = [change for change in self.after if change.rows]
        made = self._ranks(changes)
        for is_ideal in (False, True):
            used = [statement.keyword == "ideal" for statement in self.given] + [one.second is None for one in self.chosen]
            room = (MOST_IDEALS if is_ideal else MOST_ORDERS) - used.count(is_ideal)
            for at_roots in (True, False):
                found = {}
                for change, ranks in zip(changes, made):
                    for one in candidates(self.circuit, ranks, _hazards(self.circuit, change, at_roots), is_ideal):
                        if one.key() not in tried and (is_ideal or all(map(one.is_natural, made))):
                            found.setdefault(one.key(), one)
                if found and room > 0:
                    return list(found.values())[:room]
        return []

    def _thinned(self):
        """Leaves out what is not needed. What is alike stands together; wires without delay go first, and what some change turns around."""
        ranks = self._ranks(self.after)
        tried = sorted(self.chosen, key=lambda one: (all(map(one.is_natural, ranks)), one.second is not None, one.likeness))
        self._leave_out(tried, True)

    def _leave_out(self, block, is_needed):
        """Leaves out what is not needed of a block, all of it at once if that goes. Answers whether it did. `is_needed`: it is known that
        not all of it can go."""
        if self.calls >= MOST_CALLS or self.calls >= FEW_CALLS and self.calls * self.rows > MOST_ROWS:
            self.is_cut = True
            return False
        if not is_needed:
            dropped = {one.key() for one in block}
            rest = [one for one in self.chosen if one.key() not in dropped]
            after = self.report(rest)
            if self.worth(after) <= self.worth(self.after):
                self.chosen, self.after = rest, after
                return True
        if len(block) > 1:
            middle = len(block) // 2
            self._leave_out(block[middle:], self._leave_out(block[:middle], False))
        return False
