"""The job `page`: one self-contained page with the circuit, its hazards, and a player of the runs.

The page's program is in the files .js; here its data are gathered. Variables are numbered as in the complete network.
"""
import json
import os
import shutil
import subprocess

from . import cover, expect, runtext, script, why
from .circuit import load
from .errors import DONE, read_file
from .moves import Across, is_clean, kind_of
from .network import Network
from .report import CLASSES
from .summary import MEANINGS, UNDECIDED, roots, under

HERE = os.path.dirname(os.path.abspath(__file__))
PROGRAM = ("layout.js", "model.js", "circuit.js", "panels.js", "states.js", "page.js")
# A circuit of more nodes is shown as what leads to a node.
MOST_DRAWN = 300
# A page has no more changes of variables in its runs; later runs are left out, and it says so.
MOST_FLIPS = 2_000_000
# Of so many changes at most it says why their worst root has a hazard, and only as long as the circuits are not larger than this in all.
MOST_WHYS, MOST_SEARCHED = 12, 400_000
SEVERITY = ("unsettled", "dynamic", "static", "maybe-dynamic", "maybe-static")


def run(words, out):
    """Writes the page of a netlist and a script."""
    report = words.program.edges(words.netlist, words.script)
    statements = script.must_be_written_out(words.script)
    circuit = load(words.netlist)
    gathered = Changes(words, circuit)
    tally = expect.checked(words, gathered.each(report.changes, statements))
    for finding in tally.findings:
        if not finding["holds"]:
            gathered.found[finding["number"] - 1].setdefault("failed", []).append(f"{finding['expectation']}: {finding['remark']}")
    write(words, out, gathered, checked=tally.all)
    return DONE


def write(words, out, gathered, **more):
    """Writes the page of some changes, with more data."""
    circuit = gathered.circuit
    data = {
        "title": f"{os.path.basename(words.netlist)}, {os.path.basename(words.script)}",
        "files": [words.netlist, words.script],
        "most": MOST_DRAWN,
        "kinds": CLASSES,
        "meanings": {**MEANINGS, "undecided": UNDECIDED},
        **_circuit(circuit, gathered.network),
        "places": _places(circuit) if len(circuit.nodes) <= MOST_DRAWN else None,
        **more,
        "changes": gathered.found,
    }
    program = "".join(map(_part, PROGRAM))
    out.write(_filled("page.html", style=_part("page.css"), program=program, data=_as_script(data)))


def _part(name):
    return read_file(os.path.join(HERE, name))


def _filled(name, **parts):
    """A file in which each `{{part}}` is replaced by its text."""
    text = _part(name)
    for part, content in parts.items():
        before, _, after = text.partition("{{" + part + "}}")
        text = before + content + after
    return text


def _as_script(data):
    """Data as they may stand in a script of a page: no `<` could end it."""
    return json.dumps(data, separators=(",", ":")).replace("<", "\\u003c")


def _circuit(circuit, network):
    """The nodes: their names, their kinds, what they read, and the component of feedback that they are in, or 0."""
    loop_of = {name: number for number, loop in enumerate(circuit.loops(), 1) for name in loop}
    kinds = ["INPUT"] * len(circuit.primary) + ["DFF"] * len(circuit.cuts)
    return {
        "names": circuit.nodes,
        "inputs": len(circuit.inputs),
        "gates": kinds + [gate.kind for gate in circuit.gates],
        "sources": [[network.number[source] for source in circuit.sources(name)] for name in circuit.nodes],
        "loops": [loop_of.get(name, 0) for name in circuit.nodes],
        "outputs": [network.number[name] for name in dict.fromkeys(circuit.outputs)],
        "lines": [circuit.line_of.get(name, 0) for name in circuit.nodes],
        "origins": {network.number[name]: place for name, place in circuit.source_of.items()},
    }


class Changes:
    """Gathers changes for the page, while they are read."""

    def __init__(self, words, circuit):
        self.words, self.circuit, self.network, self.sorted = words, circuit, Network(circuit), None
        self.left, self.whys, self.searched, self.found = MOST_FLIPS, MOST_WHYS, MOST_SEARCHED, []
        data = {cut.data for cut in circuit.cuts}
        self.noise = data - {source for gate in circuit.gates for source in gate.sources} - set(circuit.outputs)

    def each(self, changes, statements):
        """The changes, each of which is noted first."""
        line_of, across = script.lines_of_changes(statements), Across(self.circuit, script.edges_of(statements))
        for change in changes:
            pulses = {} if change.stopped else {self.network.number[name]: numbers for name, numbers in across.pulses(change)}
            self.note(change, title=change.title(), line=line_of[change.number], **({"across": pulses} if pulses else {}))
            yield change

    def note(self, change, **head):
        """Notes a change, with what the page says in front of it."""
        self.found.append({**head, **self._of(change)})

    def _of(self, change):
        """A change: its rows as a letter a node, the nodes that are not clean, and the runs."""
        if change.stopped:
            return {"stopped": change.stopped}
        hazards = [row for row in change.rows.values() if not is_clean(row)]
        first = self._worst(hazards)
        assumed = {"under": under(change), "kept": change.kept} if change.used else {}
        told = {**_rows(change), **assumed, "hazards": [self.network.number[row.name] for row in first]}
        if hazards:
            told["roots"] = len([row for row in first if row.name in self.roots])
        text = runtext.read(change.run_lines) if change.kept else None
        self.left -= sum(map(len, text.runs[0].lead)) if text else 0
        told.update(_run(text, self.network) if text and self.left > 0 else {"run": None, "target": ""})
        if hazards and self.left > 0:
            told["why"] = self._why(change, first[0])
        return told

    def _worst(self, hazards):
        """The rows that are not clean: roots before echoes, then what only flip-flops read, then by severity, then outputs."""
        self.roots = roots(self.circuit, [row.name for row in hazards])
        outputs = set(self.circuit.outputs)
        return sorted(hazards, key=lambda row: (row.name not in self.roots, row.name in self.noise, SEVERITY.index(row.kind), row.name not in outputs))

    def _why(self, change, row):
        """Runs that show why a node has its class, each with what is said of it; none if the page has enough of them."""
        self.whys, self.searched = self.whys - 1, self.searched - len(self.network.names)
        if self.whys < 0 or self.searched < 0:
            return []
        self.sorted = self.sorted or Network(self.circuit, is_sorted=True)
        searcher, shown = why.explained(self.words, self.sorted, change, row)
        if not shown:
            return []
        named = [runtext.Run(searcher.named(one.lead), None if one.cycle is None else searcher.named(one.cycle)) for one in shown]
        self.words.program.must_accept(self.words.netlist, searcher.text.of(named))
        shown[0].told[:0] = cover.told(self.circuit, change, row)
        return [{"node": self.network.number[row.name], "title": one.title, "told": one.told,
                 "steps": [[self.network.number[name] for name in step] for step in run.lead + (run.cycle or [])],
                 "cycle": len(run.lead) if run.cycle else None} for one, run in zip(shown, named)]


def _rows(change):
    """The columns of a change's rows."""
    rows = list(change.rows.values())
    return {
        "start": "".join(row.start for row in rows),
        "end": "".join(row.end for row in rows),
        "kind": "".join(str(CLASSES.index(row.kind)) for row in rows),
        "edges": {at: [row.least, row.most] for at, row in enumerate(rows) if not is_clean(row)},
        "kinds": {at: kind_of(row) for at, row in enumerate(rows) if kind_of(row) != row.kind},
    }


def _run(text, network):
    """The run as a list of steps, and the input under which it goes."""
    return {
        "run": [[network.number[name] for name in step] for step in text.runs[0].lead],
        "target": "".join(str(text.target[name]) for name in network.netlist.inputs),
    }


def _places(circuit):
    """Where Graphviz's `dot` puts the nodes, in inches from the top left; None if it is not installed."""
    dot = shutil.which("dot")
    if dot is None or not circuit.nodes:
        return None
    edges = [f"{circuit.nodes.index(source)} -> {circuit.nodes.index(gate.name)}"
             for gate in circuit.gates for source in dict.fromkeys(gate.sources)]
    lines = ["digraph { rankdir=LR; ranksep=0.55; nodesep=0.25; node [shape=box, fixedsize=true, width=1.08, height=0.58]"]
    lines += [str(at) for at in range(len(circuit.nodes))] + edges + ["}"]
    done = subprocess.run([dot, "-Tplain"], input="\n".join(lines), stdout=subprocess.PIPE, stderr=subprocess.DEVNULL,
                          text=True, check=False)
    if done.returncode != 0:
        return None
    rows = [line.split() for line in done.stdout.splitlines()]
    height = float(rows[0][3])
    found = {int(row[1]): [float(row[2]), round(height - float(row[3]), 3)] for row in rows if row[0] == "node"}
    return [found[at] for at in range(len(circuit.nodes))]
