"""The job `summary`: a line for each change of a script, and a sentence for each node that may do more than one clean edge. Nodes of which
the same is said share it."""
import json

from . import clock, script
from .circuit import load, no_node
from .errors import DOES_NOT_HOLD, DONE, WRONG_WORDS, Failure, say
from .moves import Across, is_clean, kind_of

# How many nodes a line names, and of how many nodes a change has a line.
MOST_NAMED = 8
MOST_LINES = 12
MEANINGS = {
    "steady": "it keeps {start}, without a pulse",
    "single": "it goes from {start} to {new} by one edge",
    "static": "it is {start} before and after, and may pulse to {new} in between",
    "maybe-static": "it is {start} before and after, and a pulse to {new} in between is not excluded",
    "dynamic": "it goes from {start} to {new}, by {least} edges in some run; {bound}",
    "maybe-dynamic": "it goes from {start} to {new}, and more than one edge is not excluded; {bound}",
    "unsettled": "the delays decide where it ends, or it never settles",
}

# What an unsettled node means if orders are used: the end that is told of runs that keep them may be X, though they decide it.
UNDECIDED = "the orders are not known to decide where it ends"
NOT_KEPT = "no run is known that keeps these orders, so this may speak of no run at all"


def run(words, out):
    """Writes the summary of a netlist and a script."""
    report = words.program.edges(words.netlist, words.script)
    statements = script.must_be_written_out(words.script)
    circuit = load(words.netlist)
    teller = _Teller(words, circuit, statements)
    for change in report.changes:
        for line in teller.change(change):
            out.write(line + "\n")
    for line in teller.end():
        out.write(line + "\n")
    if words.fail and not teller.told:
        out.write("0 findings\n")
    return DOES_NOT_HOLD if words.fail and teller.told else DONE


class Finding:
    """What is told of a change: its rows that are not clean, roots before echoes. If other nodes are not spoken of, they make no echoes."""

    def __init__(self, circuit, change, spoken_of=None):
        rows = [row for row in change.rows.values() if not is_clean(row) and (spoken_of is None or row.name in spoken_of)]
        names = roots(circuit, [row.name for row in rows])
        self.roots = [row for row in rows if row.name in names]
        self.echoes = [row for row in rows if row.name not in names]


def under(change):
    """What a change assumes: the orders that it uses, and whether a run is known that keeps them."""
    if not change.used:
        return []
    lines = [f"under order {order.spelt()}" for order in change.used[:MOST_LINES]]
    lines += [f"  .. and {len(change.used) - MOST_LINES} orders more"] if len(change.used) > MOST_LINES else []
    return lines + ([] if change.kept else [NOT_KEPT])


def roots(circuit, names):
    """Those of some nodes with hazards that have them by themselves: no other such node leads to them, but for those of their own loop.
    All others may be echoes."""
    found, of_component, within = set(), {}, set(names)
    for number, component in enumerate(circuit.components(names)):
        of_component.update(dict.fromkeys(component, number))
        sources = {source for name in component for source in circuit.sources(name) if source in within}
        if all(of_component[source] == number for source in sources):
            found.update(component)
    return found


class _Teller:
    """Makes the lines of each change, or its findings as data."""

    def __init__(self, words, circuit, statements):
        self.words, self.circuit = words, circuit
        self.line_of, self.first_of = script.lines_of_changes(statements), script.edges_of(statements)
        self.across = Across(circuit, self.first_of)
        changes = [statement for statement in statements if statement.keyword == "change"]
        self.begins = script.begins_of(statements)
        # of each plain change, which is none of an edge that is written out, what the next one assigns
        self.following = {number: after.values if after and number + 1 not in self.begins else {}
                          for number, (one, after) in enumerate(zip(changes, changes[1:] + [None]), 1) if not one.texts("edge")}
        self.chosen = _chosen(words, circuit)
        self.stopped, self.told, self.data = [], 0, []

    def change(self, change):
        """The lines of a change, and then of the edge that ends with it."""
        if change.stopped:
            self._note_stopped(change)
            return []
        finding = Finding(self.circuit, change, self.chosen if self.words.roots else None)
        told = [row for row in finding.roots + ([] if self.words.roots else finding.echoes) if row.name in self.chosen]
        pulses = [(name, numbers) for name, numbers in self.across.pulses(change) if name in self.chosen]
        for line in clock.left_out(self.circuit, change, self.following[change.number]) if change.number in self.following else ():
            say(f"hazard-look: {self.words.script}:{self.line_of[change.number]}: {line}")
        self.told += len(told) + len(pulses) + (not change.kept)
        if self.words.json:
            self.data.append(self._as_data(change, told, finding, pulses))
            return []
        if self.words.fail:
            return self._findings(change, told, pulses)
        return self._lines(change, told, finding) + self._edge_lines(change, pulses)

    def _note_stopped(self, change):
        """Notes a change that is not analysed, with those right before it."""
        last = self.stopped[-1] if self.stopped else None
        if last and last["last"] == change.number - 1 and change.number not in self.begins:
            last["last"] = change.number
        else:
            self.stopped.append({"first": change.number, "last": change.number, "node": change.stopped})
            self.told += 1

    def end(self):
        """What is told after the last change."""
        if not self.words.json:
            return list(map(self._stopped_line, self.stopped))
        document = {"netlist": self.words.netlist, "script": self.words.script, "findings": self.told, "changes": self.data}
        if self.stopped:
            document["not analysed"] = {**self.stopped[0], **({"more": self.stopped[1:]} if len(self.stopped) > 1 else {})}
        return [json.dumps(document, indent=1)]

    def _stopped_line(self, stopped):
        """The line of changes that are not analysed."""
        first, last = stopped["first"], stopped["last"]
        which = f"{first}" if first == last else f"{first} to {last}"
        what = f"not analysed, {stopped['node']} did not settle in change {first - 1}"
        return f"{self.words.script}:{self.line_of[first]}: changes {which}: {what}" if self.words.fail else f"{which}: {what}"

    def _lines(self, change, told, finding):
        """The line of a change, and those of its nodes: of many nodes only of roots, unless all are asked for."""
        of_root = {row.name for row in finding.roots}
        rows = told if self.words.all or len(told) <= MOST_LINES else [row for row in told if row.name in of_root][:None if self.words.roots else MOST_LINES]
        more = len(told) - len(rows)
        lines = [f"{change.title()}: {_verdict(told, finding)}{'' if change.changes() else '; no input changes'}"]
        lines += [f"  {line}" for line in under(change)] + ([_line(row, change) for row in rows] if self.words.all else _shared(rows, change))
        lines += [f"  .. and {more} more, which --all has"] if more else []
        names = {row.name for row in told}
        return lines + [_line(row, change) for row in change.rows.values() if self.words.all and row.name in self.chosen and row.name not in names]

    def _edge_lines(self, change, pulses):
        if not pulses:
            return []
        names = ", ".join([name for name, _ in pulses[:MOST_NAMED]] + ([f".. and {len(pulses) - MOST_NAMED} more"] if len(pulses) > MOST_NAMED else []))
        several = len(pulses) > 1
        return [f"{self.first_of[change.number]} to {change.number}, one edge: {len(pulses)} node{'s' if several else ''} pulse{'' if several else 's'} across the edge: {names}",
                "  each moves once in several changes of the edge, so it pulses, though each change is clean"]

    def _findings(self, change, told, pulses):
        """A line for each finding, as compilers write them."""
        front = f"{self.words.script}:{self.line_of[change.number]}: change {change.title()}"
        lines = [f"{front}: {row.name} {kind_of(row)}: {meaning(row, change.used)}{self._place(row.name)}" for row in told]
        lines += [] if change.kept else [f"{front}: {NOT_KEPT}"]
        return lines + [f"{front}: {name} pulses across the edge, in the changes {' and '.join(map(str, numbers))}{self._place(name)}" for name, numbers in pulses]

    def _place(self, name):
        place = self.circuit.place(name, self.words.netlist)
        return f" ({place})" if place else ""

    def _as_data(self, change, told, finding, pulses):
        """What is told of a change, as data."""
        of_root = {row.name for row in finding.roots}
        hazards = [{"node": row.name, "class": row.kind, "kind": kind_of(row), "start": int(row.start), "end": row.end, "edges": {"least": row.least, "most": row.most},
                    "root": row.name in of_root, "place": self.circuit.place(row.name, self.words.netlist), "meaning": meaning(row, change.used)} for row in told]
        assumed = {"under": [order.spelt() for order in change.used], "kept": change.kept} if change.used else {}
        return {"number": change.number, "line": self.line_of[change.number], "assigned": change.assigned, **assumed, "hazards": hazards,
                "pulses across the edge": [{"node": name, "changes": numbers} for name, numbers in pulses]}


def _chosen(words, circuit):
    """The nodes that the summary speaks of: those that are named, the outputs, or all."""
    if words.only is None:
        return set(circuit.outputs) if words.outputs else circuit.known
    names = words.only.split(",")
    strange = sorted(set(names) - circuit.known)
    if strange:
        raise Failure(f"--only: {no_node(circuit, *strange)}", WRONG_WORDS)
    return set(names) & set(circuit.outputs) if words.outputs else set(names)


def _verdict(told, finding):
    """What the line of a change says after its assignments."""
    if not told:
        return "clean"
    of_root = {row.name for row in finding.roots}
    count = sum(row.name in of_root for row in told)
    named = [f"{row.name} {kind_of(row)}" for row in told[:MOST_NAMED]]
    named += [f".. and {len(told) - MOST_NAMED} more"] if len(told) > MOST_NAMED else []
    rooted = f", {count} of them root{'s' if count > 1 else ''}" if 0 < count < len(told) else ""
    return f"{len(told)} hazard{'s' if len(told) > 1 else ''}{rooted}: " + ", ".join(named)


def _line(row, change):
    return f"  {row.name} {kind_of(row)}: {meaning(row, change.used)}"


def _shared(rows, change):
    """A line for each sentence, with the nodes of which it is said."""
    names = {}
    for row in rows:
        names.setdefault((kind_of(row), meaning(row, change.used)), []).append(row.name)
    return [f"  {', '.join(of)} {kind}{', each' if len(of) > 1 else ''}: {said}" for (kind, said), of in names.items()]


def meaning(row, used=()):
    """What the class of a node means, in a sentence, if a change uses some orders."""
    those = " that keeps the orders" if used else ""
    bound = "no bound on its edges is known" if row.most is None else f"no run{those} makes more" + ("" if row.most == row.least else f" than {row.most}")
    told = UNDECIDED if used and row.kind == "unsettled" else MEANINGS[row.kind]
    return told.format(start=row.start, new=1 - int(row.start), least=row.least, bound=bound)
