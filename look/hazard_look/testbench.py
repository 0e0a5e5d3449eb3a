"""The job `testbench`: a circuit in Verilog with delays under which a node makes its hazard, and what drives it.

Each gate and each wire is an assignment with a delay. The delays satisfy the conditions that `why` prints.
"""
import random

from . import why
from .circuit import load, no_node
from .errors import DONE, WRONG_WORDS, Failure
from .netlist import INVERTED
from .network import Network
from .script import must_be_written_out
from .summary import under

# The delays before they are made to fit, and how often they are changed until they do.
USUAL, MOST_ROUNDS = 10, 10_000
_OPERATORS = {"AND": " & ", "OR": " | ", "XOR": " ^ ", "BUFF": ""}


def run(words, out):
    """Writes the Verilog of a netlist, a script and a node."""
    report = words.program.edges(words.netlist, words.script)
    must_be_written_out(words.script)
    circuit = load(words.netlist)
    if words.node not in circuit.known:
        raise Failure(no_node(circuit, words.node), WRONG_WORDS)
    change = why.change_of(words, report)
    row = change.rows[words.node]
    if row.kind == "steady":
        raise Failure(f"{row.name} is steady in change {change.title()}, so no delays move it", WRONG_WORDS)
    searcher, shown = why.explained(words, Network(circuit, is_sorted=True), change, row)
    if not shown or shown[0].comparisons is None:
        raise Failure(f"no fixed delays are known with which {row.name} shows what `why` shows", WRONG_WORDS)
    network = searcher.network
    delay = fitting(shown[0].comparisons, len(network.names))
    if delay is None:
        raise Failure(f"no delays were found that satisfy what `why` says of {row.name}", WRONG_WORDS)
    about = [f"{row.name} in change {change.title()}: {shown[0].title}"] + under(change) + shown[0].told
    out.write("\n".join([f"// {line}" for line in about] + list(_lines(network, searcher.follower, delay, row.name))) + "\n")
    return DONE


def fitting(comparisons, count):
    """Whole delays that satisfy some comparisons; None if none are found. The same ones at each call."""
    chance, delay = random.Random(1), [USUAL] * count
    length = lambda path: sum(delay[variable] for variable in path)
    for _ in range(MOST_ROUNDS):
        broken = [one for one in comparisons if length(one.early) >= length(one.late)]
        if not broken:
            return delay
        early, late = chance.choice(broken)
        if max(delay) > 1_000_000:
            delay = [max(1, one // 100) for one in delay]
        delay[chance.choice(late)] += length(early) - length(late) + USUAL
    return None


def _lines(network, follower, delay, node):
    """The module: the circuit at rest at the start, then the change, then what the node did."""
    names = [f"\\{name} " for name in network.names]
    latest = 2 * sum(delay) + 100
    yield "`timescale 1ns / 1ns\nmodule testbench;"
    for at in range(network.inputs):
        yield f"  reg {names[at]};"
    for at in range(network.inputs, len(names)):
        yield f"  wire {names[at]};"
    for at in range(network.inputs, len(names)):
        yield f"  assign #{delay[at]} {names[at]} = {_value(network, at, names)};"
    yield "  integer edges = 0;"
    yield f"  always @({names[network.number[node]]}) if ($time > {latest}) edges = edges + 1;"
    starts = [f"{names[at]} = {follower.value[at]};" for at in range(network.inputs)]
    yield "  initial begin\n    $dumpfile(\"testbench.vcd\");\n    $dumpvars;\n    // the start, held until each gate has it"
    yield "    " + " ".join(starts)
    held = range(network.inputs, len(names))
    yield from (f"    force {names[at]} = {follower.value[at]};" for at in held)
    yield f"    #{latest // 2};"
    yield from (f"    release {names[at]};" for at in held)
    yield f"    #{latest - latest // 2 + 1};\n    // the change, each input after a delay of its own"
    changed = [at for at in range(network.inputs) if follower.value[at] != follower.target[at]]
    yield "    fork"
    yield from (f"      #{delay[at]} {names[at]} = {follower.target[at]};" for at in changed)
    yield "    join"
    yield f"    #{10 * latest};\n    $display(\"%0d edges, ends at %b\", edges, {names[network.number[node]]});\n    $finish;\n  end\nendmodule"


def _value(network, variable, names):
    """What a gate or a wire follows, in Verilog."""
    if network.is_wire(variable):
        return names[network.source[variable]]
    gate = network.netlist.gates[variable - network.inputs]
    pins = _OPERATORS[INVERTED.get(gate.kind, gate.kind)].join(names[wire] for wire in network.wires(variable))
    return f"~({pins})" if gate.kind in INVERTED else pins
