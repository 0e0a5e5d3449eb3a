"""The job `expect`: expectations in the comments of a script, so that the script stays one and is a test as well."""
import json
from typing import NamedTuple, Optional

from . import expectations, junit, runtext, script
from .circuit import load
from .errors import DOES_NOT_HOLD, DONE, WRONG_WORDS, Failure
from .expectations import Class, Edges, Never
from .moves import Moves, classes_of, kind_of
from .network import Network
from .search import Searcher, Values
from .summary import NOT_KEPT


class Answer(NamedTuple):
    """Whether an expectation holds, or None if it was not checked; a remark that is worth a line in either case; the node of which it
    speaks."""

    holds: Optional[bool]
    remark: str
    node: str = ""


class Tally:
    """How many expectations were checked, each for each change or edge that it speaks of, how many failed, and how many could not be
    checked; and what is told of them."""

    def __init__(self):
        self.all = self.failed = self.not_checked = 0
        self.findings, self.stopped, self.cases = [], [], []

    def spelt(self):
        """The last line."""
        more = f", {self.not_checked} not checked" if self.not_checked else ""
        return f"{self.all} expectation{'' if self.all == 1 else 's'}, {self.failed} failed{more}"


def run(words, out):
    """Checks the expectations of a script, and writes a line for each that does not hold."""
    report = words.program.edges(words.netlist, words.script)
    tally = checked(words, report.changes, words.junit)
    if not tally.all:
        raise Failure("no comment of the script begins with `#expect`, so nothing is checked", WRONG_WORDS)
    if words.junit:
        out.write(junit.text(words, tally))
    elif words.json:
        out.write(json.dumps({"netlist": words.netlist, "script": words.script, "expectations": tally.all, "failed": tally.failed,
                              "not checked": tally.not_checked, "findings": tally.findings, "not analysed": tally.stopped}, indent=1) + "\n")
    else:
        for finding in tally.findings:
            out.write(f"{finding['file']}:{finding['line']}: change {finding['change']}: {finding['expectation']}: {finding['remark']}"
                      + (f" ({finding['netlist']})" if finding["netlist"] else "") + "\n")
        for one in tally.stopped:
            out.write(f"{one['file']}:{one['line']}: {one['remark']}\n")
        out.write(tally.spelt() + "\n")
    return DOES_NOT_HOLD if tally.failed or tally.not_checked else DONE


def checked(words, changes, keeps_all=False):
    """The tally of all expectations of a script along the changes of a report. It keeps each that was checked if that is wanted, and else
    those that are worth a line."""
    circuit = load(words.netlist)
    statements = script.must_be_written_out(words.script)
    expected = expectations.read(words.script, statements, circuit)
    tally, plan = Tally(), _Plan(expected, statements)
    bench = _Bench(words, circuit, plan.spans)
    for change in changes:
        bench.goes_on(change)
        missed = 0
        for one, first in plan.checks(change.number):
            tally.all += 1
            if change.stopped:
                missed += 1
                answer = Answer(None, f"not checked: {change.stopped} did not settle before")
            else:
                answer = bench.answer(one, first)
                if answer.remark:
                    tally.findings.append(_finding(words, bench, one, first, answer))
            tally.not_checked += answer.holds is None
            tally.failed += answer.holds is False
            if keeps_all:
                tally.cases.append(_finding(words, bench, one, first, answer))
        if change.stopped:
            _note_stopped(tally, words, plan, change, missed)
    return tally


def _finding(words, bench, one, first, answer):
    """What is told of an expectation that was judged at the end of a change."""
    change = bench.change
    title = change.title() if first == change.number else f"{first} to {change.title()}"
    return {"file": words.script, "line": one.line, "change": title, "number": change.number, "first": first, "holds": answer.holds,
            "expectation": one.text, "remark": answer.remark, "node": answer.node,
            "netlist": bench.circuit.place(answer.node, words.netlist)}


def _note_stopped(tally, words, plan, change, missed):
    """Notes in one line all changes up to a start that are not analysed, and how many expectations are missed."""
    if not tally.stopped or tally.stopped[-1]["last"] < change.number - 1 or change.number in plan.begins:
        tally.stopped.append({"file": words.script, "line": plan.line_of[change.number], "first": change.number})
        plan.missed = 0
    first, plan.missed = tally.stopped[-1]["first"], plan.missed + missed
    which = f"change {first} is" if first == change.number else f"changes {first} to {change.number} are"
    told = f"{plan.missed} expectation{'' if plan.missed == 1 else 's'} not checked"
    tally.stopped[-1].update(last=change.number, remark=f"{which} not analysed, {change.stopped} did not settle in change {first - 1}: {told}")


class _Plan:
    """Which expectations are to be judged at the end of each change, and from which change on each speaks."""

    def __init__(self, expected, statements):
        self.line_of = script.lines_of_changes(statements)
        self.edges, self.begins, self.missed = script.edges_of(statements), script.begins_of(statements), 0
        self.own, self.defaults, self.begin = {}, {}, 1
        for one in expected:
            if one.begin is None:
                self.own.setdefault(one.last, []).append(one)
            else:
                self.defaults.setdefault(one.begin, []).append(one)
        spans = {(one.first, one.last) for one in expected if one.first != one.last}
        if any(one.of_edge for one in expected if one.begin):
            spans.update((first, last) for last, first in self.edges.items())
        self.spans = sorted(spans)

    def checks(self, number):
        """The expectations of a change, each with the first change that it speaks of. What a change expects itself goes before the
        defaults of its start, and these before those of all changes."""
        self.begin = number if number in self.begins else self.begin
        nearer = [(one, one.first) for one in self.own.get(number, [])]
        for begin in dict.fromkeys((self.begin, 1)):
            nearer[:0] = [(one, first) for one, first in self._of_defaults(begin, number) if not any(
                mine.of_edge == one.of_edge and start == first and mine.overrides(one) for mine, start in nearer)]
        return nearer

    def _of_defaults(self, begin, number):
        """The defaults behind a start, each with the first of the changes up to a number that it speaks of there."""
        found = [(one, self.edges.get(number) if one.of_edge else number) for one in self.defaults.get(begin, [])]
        return [(one, first) for one, first in found if first]


class _Bench:
    """Judges expectations of the change that is read, and of spans of changes that end with it."""

    def __init__(self, words, circuit, spans):
        self.words, self.circuit, self.network = words, circuit, Network(circuit)
        self.begin, self.end = {}, {}
        for first, last in spans:
            self.begin.setdefault(first, []).append((first, last))
        # the last change of which no run is known that keeps its orders
        self.open, self.change, self.unkept = {}, None, 0

    def goes_on(self, change):
        """Takes up the next change."""
        self.change, self.unkept = change, self.unkept if change.kept else change.number
        self.open = {span: moves for span, moves in self.open.items() if span[1] >= change.number}
        self.open.update((span, Moves(self.circuit)) for span in self.begin.get(change.number, ()))
        if not change.stopped:
            for moves in self.open.values():
                moves.add(change)

    def answer(self, one, first):
        """Whether an expectation holds. If no run is known that keeps the orders which are used, what holds of all such runs is no
        answer."""
        found = self._answer(one, first)
        return Answer(None, f"not checked: {NOT_KEPT}", found.node) if found.holds and first <= self.unkept else found

    def _answer(self, one, first):
        if isinstance(one.what, (Class, Edges)):
            row = self.change.rows[one.what.node]
            if first != self.change.number:
                row = self.open[first, self.change.number].row(one.what.node)
            return self._of_class(one.what, row) if isinstance(one.what, Class) else self._of_edges(one.what, row)
        return self._of_never(one.what) if isinstance(one.what, Never) else self._of_settled()

    def _of_class(self, what, row):
        holds = not classes_of(row).isdisjoint(what.kinds)
        return Answer(holds, "" if holds else f"its class is {kind_of(row)}", what.node)

    def _of_edges(self, what, row):
        holds = row.most is not None and row.most <= what.most
        return Answer(holds, "" if holds else f"it may make {row.edges()}", what.node)

    def _of_settled(self):
        unsettled = next((row.name for row in self.change.rows.values() if row.end == "X"), "")
        return Answer(not unsettled, f"{unsettled} is unsettled" if unsettled else "", unsettled)

    def _of_never(self, what):
        """A node that is steady never has its other value, which is proved. Otherwise a state with the values is looked for."""
        rows = self.change.rows
        if any(not rows[name].moves() and rows[name].start != str(bit) for name, bit in what.values.items()):
            return Answer(True, "")
        if not self.change.kept:
            return Answer(True, "")
        searcher = Searcher(self.network, self.change.run_lines, self.change.used)
        cone = set().union(*(self.network.cone(self.network.number[name]) for name in what.values))
        found = searcher.find(Values(self.network, what.values), cone)
        if found is None:
            return Answer(True, "not shown, which is no proof")
        lead = searcher.named(found)
        self.words.program.must_accept(self.words.netlist, searcher.text.of([runtext.Run(lead, None)]))
        return Answer(False, "shown by the steps " + ", ".join(map(" ".join, lead)) if lead else "it is so before the change")
