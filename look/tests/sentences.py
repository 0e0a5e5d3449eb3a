"""What `why` says of delays: each assignment of delays that satisfies a sentence does what the sentence says, in iverilog too, and the order
of the pins changes no sentence."""
import heapq
import math
import os
import random
import re
import shutil
import subprocess

import circuits
from hazard_look import netlist as netlists
from hazard_look import why
from hazard_look.history import History
from hazard_look.moves import is_clean
from hazard_look.network import Follower, Network
from hazard_look.search import Searcher

CIRCUITS, ASSIGNMENTS = 50, 200
# so many of the assignments are tried here as well, without the simulator, and on more circuits
TRIED, MOST_EVENTS = 20, 3_000
SLOWEST = 1000
# when the simulation lets go of the start, when it changes the inputs, and when it looks
RELEASE, CHANGE, END = 5 * SLOWEST, 6 * SLOWEST, 50 * SLOWEST


def rows(folder, model, hazard, write, call):
    """Rows of name, found, wanted."""
    has_simulator = bool(shutil.which("iverilog"))
    if not has_simulator:
        print("skipped: sentences in iverilog: it is not installed")
    tried = unsatisfied = simulated = 0
    for name, circuit in circuits.random_circuits(model, 3 * CIRCUITS, seed=72, gates=(4, 12)):
        files = [write(folder, "s.bench", circuit.netlist()), write(folder, "s.txt", circuit.script())]
        for case in _cases(hazard, files):
            in_simulator = has_simulator and simulated < CIRCUITS
            delays = list(_assignments(case, random.Random(name + case.name), ASSIGNMENTS if in_simulator else TRIED))
            unsatisfied += not delays
            wrong = [one for one in delays[:TRIED] if not case.holds(*_timed(case.searcher.follower, case.node, one))]
            yield f"{case.what} of {case.name} in {name}", wrong[:1], []
            tried += bool(delays)
            if in_simulator and delays:
                simulated += 1
                found = _in_iverilog(folder, write, case, delays)
                yield f"{case.what} of {case.name} in {name}, in iverilog", [one for one in found if not case.holds(*one)], []
    print(f"sentences: {tried}, {simulated} of them with {ASSIGNMENTS} assignments of delays in iverilog, {unsatisfied} that no assignment was found to satisfy")
    yield "enough sentences", tried > 2 * CIRCUITS and unsatisfied * 10 < tried and (simulated == CIRCUITS or not has_simulator), True
    yield from _permuted(folder, model, write, call)


class Case:
    """A sentence: what it says of a node of a circuit, and the comparisons that it has."""

    def __init__(self, searcher, node, what, comparisons, holds):
        self.searcher, self.node, self.what, self.comparisons, self.holds = searcher, node, what, comparisons, holds
        self.name = searcher.network.names[node]


def _cases(hazard, files):
    """The sentences of a circuit: one of a node that may pulse, one of each end of an unsettled node."""
    circuit = netlists.read(open(files[0], encoding="utf-8").read())
    change = next(hazard.edges(*files).changes)
    network = Network(circuit, is_sorted=True)
    searcher = Searcher(network, change.run_lines)
    moving = {network.number[row.name] for row in change.rows.values() if row.moves()}
    for row in [row for row in change.rows.values() if not is_clean(row)][:3]:
        node = network.number[row.name]
        if row.kind == "unsettled":
            for bit, steps in searcher.endings(node).items():
                yield from _case(searcher, node, f"end at {bit}", steps, moving, 0, lambda _, end, bit=bit: end == bit)
        elif row.least > 1:
            wanted = min(row.least, 3)
            steps = searcher.edges(node, wanted, moving)
            yield from _case(searcher, node, row.kind, steps, moving, wanted, lambda count, _, wanted=wanted: count >= wanted)


def _case(searcher, node, what, steps, moving, edges, holds):
    history = History(searcher.follower, steps, moving)
    _, found = why._told(history, node, "", edges) if edges else why._told_of_end(searcher, node, steps, int(what[-1]), moving)
    if found is not None:
        yield Case(searcher, node, what, found, holds)


def _assignments(case, chance, wanted):
    """Delays by chance, between 1 and 1000 on a scale of powers, made to satisfy all comparisons."""
    count = len(case.searcher.network.names)
    for _ in range(wanted):
        for _ in range(2):
            delay = [10 ** chance.uniform(0, 3) for _ in range(count)]
            for _ in range(100):
                broken = [one for one in case.comparisons if not _sum(delay, one.early) + 1e-6 < _sum(delay, one.late)]
                if not broken:
                    break
                one = chance.choice(broken)
                ratio = _sum(delay, one.early) / _sum(delay, one.late) * (1 + chance.random())
                for variable in one.late if chance.random() < 0.5 else one.early:
                    delay[variable] *= ratio if variable in one.late else 1 / ratio
            whole = [max(1, round(one * 1000 / max(delay))) if max(delay) > 1000 else max(1, round(one)) for one in delay]
            if all(_sum(whole, one.early) < _sum(whole, one.late) for one in case.comparisons):
                yield whole
                break
        else:
            return


def _sum(delay, path):
    return sum(delay[variable] for variable in path)


def _timed(follower, node, delay):
    """How often a node changes under fixed delays, each of a variable that has to be unstable all the time, and its value at the end."""
    network, due, queue, steps = follower.network, {}, [], []

    def look_at(variable, now):
        if not follower.is_unstable(variable):
            due.pop(variable, None)
        elif variable not in due:
            due[variable] = now + delay[variable]
            heapq.heappush(queue, (due[variable], variable))

    for variable in range(network.inputs):
        look_at(variable, 0)
    edges = 0
    while queue and len(steps) < MOST_EVENTS:
        now, _ = queue[0]
        ready = []
        while queue and queue[0][0] == now:
            variable = heapq.heappop(queue)[1]
            if due.get(variable) == now:
                del due[variable]
                ready.append(variable)
        for variable in ready:
            follower.flip(variable)
            edges += variable == node
        steps.append(ready)
        for variable in ready:
            for reader in network.readers(variable):
                look_at(reader, now)
            look_at(variable, now)
    end = follower.value[node]
    follower.flip_all(steps)
    return edges, end


def _in_iverilog(folder, write, case, delays):
    """The same by iverilog: for each assignment the edges of the node, and its value at the end."""
    network, follower = case.searcher.network, case.searcher.follower
    names = [f"v{at}" for at in range(len(network.names))]
    gates = []
    for variable, name in enumerate(names):
        if network.is_wire(variable):
            value = names[network.source[variable]]
        elif network.is_input(variable):
            value = f"{name}_in"
        else:
            gate = network.netlist.gates[variable - network.inputs]
            sign = {"AND": " & ", "OR": " | ", "XOR": " ^ ", "BUFF": ""}[netlists.INVERTED.get(gate.kind, gate.kind)]
            value = ("~" if gate.kind in netlists.INVERTED else "") + "(" + sign.join(names[wire] for wire in network.wires(variable)) + ")"
        gates.append(f"wire {name}; assign #(D{variable}) {name} = {value};")
    inputs = [f"reg {names[at]}_in = {follower.value[at]}; initial #{CHANGE} {names[at]}_in = {follower.target[at]};" for at in range(network.inputs)]
    forced = " ".join(f"force {name} = {bit};" for name, bit in zip(names, follower.value))
    released = " ".join(f"release {name};" for name in names)
    parameters = ", ".join(f"parameter D{at} = 1" for at in range(len(names)))
    node = names[case.node]
    lines = [f"module c #({parameters})();", *inputs, *gates, "integer edges = 0;", f"always @({node}) if ($time >= {CHANGE}) edges = edges + 1;",
             f"initial begin {forced} #{RELEASE} {released} end", f'initial #{END} $display("%0d %0d %b", ID, edges, {node});', "endmodule"]
    lines[0] = lines[0].replace("#(", "#(parameter ID = 0, ")
    for at, delay in enumerate(delays):
        lines.append(f"module t{at}(); c #(.ID({at}), " + ", ".join(f".D{place}({one})" for place, one in enumerate(delay)) + ") made(); endmodule")
    lines.append(f"module top(); {' '.join(f't{at} u{at}();' for at in range(len(delays)))} initial #{END + 1} $finish; endmodule")
    source, program = write(folder, "s.v", "\n".join(lines) + "\n"), os.path.join(folder, "s.out")
    subprocess.run(["iverilog", "-s", "top", "-o", program, source], check=True)
    told = subprocess.run(["vvp", "-n", program], stdout=subprocess.PIPE, check=True).stdout.decode().splitlines()
    return [(int(row.split()[1]), int(row.split()[2])) if row.split()[2] in "01" else (0, -1) for row in told if row[:1].isdigit()]


def _permuted(folder, model, write, call):
    """The same netlist with the pins of each gate in another order: the same words, but for the numbers of the pins."""
    chance, told_of, others = random.Random(4), 0, []
    for name, circuit in circuits.random_circuits(model, 40, seed=99, gates=(4, 12)):
        bench, script = write(folder, "p.bench", circuit.netlist()), write(folder, "p.txt", circuit.script())
        lines = []
        for line in circuit.netlist().splitlines():
            found = re.match(r"(.* = \w+)\((.*)\)$", line)
            if found:
                pins = found[2].split(", ")
                chance.shuffle(pins)
                line = f"{found[1]}({', '.join(pins)})"
            lines.append(line)
        other = write(folder, "q.bench", "\n".join(lines) + "\n")
        for node in circuit.names[len(circuit.inputs):][:4]:
            told = [re.sub(r"\(\d+\)|\s+", " ", "\n".join(_sentences(call(["why", path, script, node])[1]))) for path in (bench, other)]
            others += [(name, node)] if told[0] != told[1] else []
            told_of += bool(told[0].strip())
    print(f"sentences of permuted pins: {told_of}")
    yield "sentences of permuted pins", (told_of > 20, others), (True, [])


def _sentences(text):
    """The lines of conditions in what `why` writes."""
    return [line for line in text.splitlines() if line.startswith("  ") and line.strip(" 0123456789")]
