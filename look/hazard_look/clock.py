"""The job `clock`: lines `#clock ck` of a script, written out as the two changes of an edge, the clock and then the flip-flops.

`#clock ck` is a rising edge of `ck`, `#clock ck=0` a falling one, and `#clock` an edge of a clock that is no node. A flip-flop
takes the value that its data node has before the edge. Which clock it has is said by a comment of its line in the netlist, as
`from-yosys` writes it; without one it follows each.

The changes are written by a simulation, in which one gate changes after the other. Then one report on the whole script has to show the
same values at rest, and nothing is written if it does not.
"""
import os
import re
import stat

from . import script
from .circuit import load
from .errors import DOES_NOT_HOLD, DONE, NOT_ACCEPTED, SCRIPT_FAULT, Failure, say
from .expectations import EDGE
from .lines import spelt
from .moves import is_clean
from .resting import Resting

_CLOCK = re.compile(r"\bclock (\S+) (rising|falling)\b")
_RESET = re.compile(r"\breset (\S+)=([01]) to ([01])(?!\S)")
_EDGE = re.compile(r"(?:([^\s=]+)(?:=([01]))?)?$")


def run(words, out):
    """Writes the script with its edges written out, all of it or nothing."""
    report = words.program.edges(words.netlist, words.script)
    for _ in report.changes:
        # the later starts are read behind the changes before them
        pass
    circuit = load(words.netlist)
    writer = _Writer(circuit, words.script, report.starts)
    for statement in script.read(words.script):
        writer.statement(statement)
    text = "".join(line + "\n" for line in writer.lines)
    _check(words, circuit, writer, text)
    _warn(circuit)
    _write_whole(out, text)
    return DONE


def _write_whole(out, text):
    """Writes a text. If a file has no room for all of it, what was written is taken back: the first lines of a script are a script as well."""
    try:
        number = out.fileno()
        size = os.fstat(number).st_size if stat.S_ISREG(os.fstat(number).st_mode) else None
    except (AttributeError, OSError):
        size = None
    try:
        out.write(text)
        if size is not None:
            out.flush()
    except OSError:
        if size is not None:
            os.ftruncate(number, size)
        raise


def _warn(circuit):
    """Warns of inputs of which no gate knows."""
    for name in circuit.unread_inputs():
        is_clock = any(found and found[1] == name for found in (_CLOCK.search(cut.comment) for cut in circuit.cuts))
        what = "its edges act by the flip-flops alone" if is_clock else "a change of it changes nothing else"
        say(f"hazard-look: no gate reads {name}: {what}")


def _check(words, circuit, writer, text):
    """Compares the values after each change with the report on the script that is to be written, and warns of pulses."""
    at_rest = {}
    for change, made in zip(words.program.edges_of_text(words.netlist, text), writer.made):
        unsettled = next((row.name for row in change.rows.values() if row.end == "X"), None)
        where = f"{words.script}:{made.number}"
        if unsettled:
            raise Failure(f"{where}: {unsettled} does not settle after `change{spelt(made.values)}`", DOES_NOT_HOLD)
        at_rest = dict(made.begin) if made.begin else at_rest
        at_rest.update(made.settled)
        if any(str(at_rest[row.name]) != row.end for row in change.rows.values()):
            raise Failure(f"{where}: the values after `change{spelt(made.values)}` are not those of the report", NOT_ACCEPTED)
        for line in _pulses(circuit, change.rows):
            say(f"hazard-look: {where}: {line}")


def _pulses(circuit, rows):
    """The clocks and resets that may pulse: a flip-flop may take a pulse for an edge or a reset, and the script does not."""
    found = {}
    for cut in circuit.cuts:
        clock, reset = _CLOCK.search(cut.comment), _RESET.search(cut.comment)
        if clock and not is_clean(rows[clock[1]]):
            found.setdefault(f"the clock {clock[1]} may pulse, and the script has no edge for it", []).append(cut.name)
        if reset and rows[reset[1]].kind == "static" and rows[reset[1]].start != reset[2]:
            found.setdefault(f"the reset {reset[1]} may pulse, and the script resets nothing", []).append(cut.name)
    for what, (first, *others) in found.items():
        more = f" and {len(others)} more" if others else ""
        yield f"{what}: flip-flop {first}{more}"


def left_out(circuit, change, following):
    """A line on the flip-flops whose clock has its edge in a plain change, which neither this change nor the one that follows gives the
    values that they read; none if there are none."""
    found, rows = [], change.rows
    for cut in circuit.cuts:
        clock, reset = _CLOCK.search(cut.comment), _RESET.search(cut.comment)
        is_reset = bool(reset) and rows[reset[1]].end == reset[2]
        if clock and not is_reset and cut.name not in change.assigned and cut.name not in following:
            row, new = rows[clock[1]], str(int(clock[2] == "rising"))
            if row.start != new == row.end and rows[cut.data].start != rows[cut.name].start:
                found.append(cut.name)
    if not found:
        return []
    inputs = [name if bit else f"{name}=0" for name, bit in change.changes().items() if name in circuit.primary]
    more = f" and {len(found) - 1} more keep their bits" if len(found) > 1 else " keeps its bit"
    return [f"flip-flop {found[0]}{more}: a plain change of a clock moves no flip-flop, a line `#clock {inputs[0] if len(inputs) == 1 else 'NAME'}` does"]


class _Made:
    """A change that is written: its line in the script that is read, what it assigns, the nodes that it brings to another value, and the
    values of all before it if it is the first one behind a start."""

    def __init__(self, number, values, settled, begin):
        self.number, self.values, self.settled, self.begin = number, values, settled, begin


class _Writer:
    """Writes changes, and knows the values of all nodes after them."""

    def __init__(self, circuit, path, starts):
        self.circuit, self.path, self.starts = circuit, path, list(starts)
        self.resting, self.begin = Resting(circuit, starts[0]), None
        self.lines, self.made, self.is_started = [], [], False

    def statement(self, statement):
        """Writes a line of the script, or the changes for which it stands."""
        unread = script.edge_in_remark(statement, self.circuit.inputs)
        if statement.faults or unread:
            raise self._fault(statement, (statement.faults + [unread])[0])
        if statement.texts("clock") and not self.is_started:
            raise self._fault(statement, "an edge stands after the start")
        if statement.keyword == "start":
            self.is_started, self.begin = True, self.starts.pop(0)
            self.resting = Resting(self.circuit, self.begin)
        if statement.texts("clock"):
            self._edge(statement)
            return
        begin = len(self.lines)
        self.lines.append(statement.line)
        if statement.keyword == "change":
            self._make(statement.values, statement.number)
            self._reset(statement.number)
        if len(self.lines) > begin + 1:
            # a reset is a part of the change that brings it about, so what is expected there is expected of both
            self.lines[begin] = statement.line.partition("#")[0].rstrip()
            self._mark(statement, begin, begin, spelt(statement.values)[1:])
            self.lines[-1] += "  # reset"

    def _fault(self, statement, what):
        return script.fault_of(self.path, statement.number, what, SCRIPT_FAULT)

    def _make(self, values, number):
        """Lets the circuit come to rest after a change."""
        self.made.append(_Made(number, values, self.resting.after(values), self.begin))
        self.begin = None

    def _reset(self, number):
        """Writes the change of the flip-flops that a reset changes, if there is one."""
        values = self.resting.value
        resets = ((cut.name, _RESET.search(cut.comment)) for cut in self.circuit.cuts)
        acting = {name: int(found[3]) for name, found in resets if found and values.get(found[1]) == int(found[2])}
        moved = {name: bit for name, bit in acting.items() if values[name] != bit}
        if moved:
            self.lines.append(f"change{spelt(moved)}")
            self._make(moved, number)

    def _edge(self, statement):
        """Writes the changes of a line `#clock ..`. What is expected there is expected of each of them, and of the last one what is
        expected of the edge."""
        told, values = statement.texts("clock"), self.resting.value
        found = _EDGE.match(told[0])
        if statement.keyword or len(told) > 1 or not found:
            raise self._fault(statement, "an edge is a line `#clock NAME` or `#clock NAME=BIT`")
        clock, bit = found[1], int(found[2] or 1)
        if clock and clock not in self.circuit.inputs:
            raise self._fault(statement, f"no input is named {clock}")
        if clock and values[clock] == bit:
            self._written({clock: 1 - bit}, statement.number)
        begin, before = len(self.lines), dict(values)
        if clock:
            self._written({clock: bit}, statement.number)
        loaded = {cut.name: before[cut.data] for cut in self.circuit.cuts if not clock or self._follows(cut, before)}
        if loaded:
            self._written(loaded, statement.number)
        self._mark(statement, begin, len(self.lines) - 1, f"{clock}={bit}" if clock else "flip-flops")

    def _written(self, values, number):
        """A change that has no line of its own in the script."""
        self.lines.append(f"change{spelt(values)}")
        self._make(values, number)
        self._reset(number)

    def _mark(self, statement, begin, remarked, name):
        """Writes behind the changes of an edge that they are one, and what is expected of them; and the remark behind one of them."""
        count = len(self.lines) - begin
        expected = statement.texts("expect")
        own = [text for text in expected if not text.lower().startswith(EDGE)]
        of_edge = [text for text in expected if text.lower().startswith(EDGE)]
        if count == 0:
            if expected:
                raise self._fault(statement, "no flip-flop has an edge, so nothing happens of which something could be expected")
            self.lines.append("# no flip-flop has an edge" + (f"  {statement.remark}" if statement.remark else ""))
        for at in range(begin, len(self.lines)):
            marks = [f"#edge {name if at == begin else script.GOES_ON}"] if count > 1 or of_edge else []
            marks += [f"#expect {text}" for text in own + (of_edge if at == len(self.lines) - 1 else [])]
            marks += [statement.remark] if statement.remark and at == remarked else []
            self.lines[at] = "  ".join([self.lines[at]] + marks)

    def _follows(self, cut, before):
        """Whether the clock of a flip-flop has had its edge; one whose clock is not known follows each edge."""
        found = _CLOCK.search(cut.comment)
        if not found:
            return True
        new = int(found[2] == "rising")
        return before[found[1]] != new and self.resting.value[found[1]] == new
