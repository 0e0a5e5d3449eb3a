"""The designs of `designs/`, as yosys wrote them: their netlists, their analysis beside iverilog, and cells that are refused.

The files NAME.json come from `yosys -p "read_verilog NAME.v; synth -flatten -top NAME; write_json NAME.json"` (0.23); `select` has
`abc -g AND,OR,MUX,AOI3,AOI4,OAI3,OAI4; clean` before `write_json`. NAME.txt is a script for the netlist, with lines `#clock`.
"""
import json
import os
import random
import re
import shutil
import subprocess
from itertools import product

from hazard_look import cells, join, lines, netlist, network, script

ROOM = os.path.join(os.path.dirname(os.path.abspath(__file__)), "designs")
NAMES = ("gate", "latch", "counter", "synchroniser", "select")
# What a combinational cell answers, by its pins.
CELLS = {
    "$_ANDNOT_": lambda A, B: A & ~B, "$_ORNOT_": lambda A, B: A | ~B,
    "$_MUX_": lambda A, B, S: B if S else A, "$_NMUX_": lambda A, B, S: ~(B if S else A),
    "$_AOI3_": lambda A, B, C: ~(A & B | C), "$_OAI3_": lambda A, B, C: ~((A | B) & C),
    "$_AOI4_": lambda A, B, C, D: ~(A & B | C & D), "$_OAI4_": lambda A, B, C, D: ~((A | B) & (C | D)),
}
FAMILIES = {"DFF": "C", "DFFE": "CE", "SDFF": "CR", "SDFFE": "CRE", "SDFFCE": "CRE", "DFF ": "CR", "DFFE ": "CRE"}


def rows(folder, call, run, hazard, expected):
    """Rows of name, found, wanted."""
    for name in NAMES:
        status, text, errors = run(["from-yosys", os.path.join(ROOM, name + ".json")], folder)
        yield f"netlist of {name}", (status, text + errors), (0, expected(f"yosys-{name}.txt"))
        bench = os.path.join(folder, name + ".bench")
        with open(bench, "w", encoding="utf-8") as file:
            file.write(text)
        status, written, errors = run(["clock", bench, os.path.join(ROOM, name + ".txt")], folder)
        yield f"clock of {name}", (status, [line for line in errors.splitlines() if "no gate reads" not in line]), (0, [])
        if shutil.which("iverilog"):
            yield f"steady values of {name}", *_beside_iverilog(folder, name, written, bench, hazard)
        else:
            print(f"skipped: steady values of {name}: iverilog is not installed")
    yield from _combinational()
    yield from _flip_flops()
    yield from _latches()
    yield from _refused(folder, run)
    yield from _enumerated(folder, run)
    yield from _joined_at_random()
    yield from _joined(folder, run)
    yield from _other_names(folder, run)
    yield from _clock_behind_feedback(folder, run)


def _beside_iverilog(folder, name, written, bench, hazard):
    """The values of the outputs at rest, by iverilog and by the report, before each change of an input and at the end."""
    circuit = netlist.read(open(bench, encoding="utf-8").read())
    path = _write(folder, name + ".written", written)
    changes = [one for one in script.read(path) if one.keyword == "change"]
    report = hazard.edges(bench, path)
    start, reports = report.start, list(report.changes)
    values = [start] + [{row.name: int(row.end) for row in change.rows.values()} for change in reports]
    ports = json.load(open(os.path.join(ROOM, name + ".json"), encoding="utf-8"))["modules"][name]["ports"]
    cuts = {cut.name for cut in circuit.cuts}
    outputs = _outputs(bench, ports)
    found, bench_lines = [], [f"{port} = {_word(port, ports, values[0])};" for port in _ports(ports, "input")]
    for at, change in enumerate(changes + [None]):
        if change is None or not set(change.values) <= cuts:
            found.append("".join(str(values[at][node]) for node in outputs))
            bench_lines.append('#10 $display("%b", {' + ", ".join(_ports(ports, "output")) + "});")
            if change is not None:
                bench_lines += [f"{port} = {_word(port, ports, values[at + 1])};" for port in _ports(ports, "input")]
    return found, _simulated(folder, name, ports, bench_lines)


def _ports(ports, direction):
    return [port for port in ports if ports[port]["direction"] == direction]


def _word(port, ports, values):
    """The value of a port as Verilog writes it."""
    width = len(ports[port]["bits"])
    bits = [values[port]] if width == 1 else [values[f"{port}[{at}]"] for at in reversed(range(width))]
    return f"{width}'b" + "".join(map(str, bits))


def _outputs(bench, ports):
    """The nodes of the output ports, the first port first, and of each its highest bit first."""
    nodes = [line.tokens[2] for line in lines.lines_of(open(bench, encoding="utf-8").read()) if line.tokens[:1] == ["OUTPUT"]]
    ordered = []
    for port in ports.values():
        if port["direction"] == "output":
            own, nodes = nodes[:len(port["bits"])], nodes[len(port["bits"]):]
            ordered += own[::-1]
    return ordered


def _simulated(folder, name, ports, bench_lines):
    """What iverilog displays of the source text of a design."""
    kinds = {"input": "reg", "output": "wire"}
    declared = [f"{kinds[port['direction']]} [{len(port['bits']) - 1}:0] {name};" for name, port in ports.items()]
    connected = ", ".join(f".{port}({port})" for port in ports)
    parts = ["module bench;"] + declared + [f"{name} made({connected});", "initial begin"] + bench_lines + ["end", "endmodule"]
    text = "\n".join(parts) + "\n"
    source, program = os.path.join(folder, "bench.v"), os.path.join(folder, "bench.out")
    with open(source, "w", encoding="utf-8") as file:
        file.write(text)
    subprocess.run(["iverilog", "-o", program, source, os.path.join(ROOM, name + ".v")], check=True)
    return subprocess.run(["vvp", "-n", program], stdout=subprocess.PIPE, check=True).stdout.decode().split()


def _value(expansion, pins, held=None):
    """The values of an expansion's nodes by its pins, its flip-flops and its output holding a value."""
    values = dict(pins, **({"Q": held, "q": held} if held is not None else {}))
    for _ in range(2 * len(expansion.gates)):
        for gate in expansion.gates:
            if gate.kind != "DFF" and all(source in values for source in gate.sources):
                values[gate.name] = network.gate_value(gate.kind, sum(values[source] for source in gate.sources), len(gate.sources))
    return values


def _combinational():
    """Each cell of several gates, by all values of its pins."""
    for kind, function in CELLS.items():
        names = function.__code__.co_varnames
        for bits in product((0, 1), repeat=len(names)):
            found = _value(cells.expansion_of(kind), dict(zip(names, bits)))["Y"]
            yield f"{kind} of {bits}", found, function(*bits) & 1


def _flip_flops():
    """The next value of each flip-flop, and its output under an asynchronous reset."""
    for family, pins in FAMILIES.items():
        for letters in product("NP", repeat=len(pins)):
            for reset_to in "01" if "R" in pins else " ":
                spelt = "".join(letter + (reset_to if pin == "R" else "") for pin, letter in zip(pins, letters))
                kind = f"$_{family.strip()}_{spelt}_"
                acts = {pin: int(letter == "P") for pin, letter in zip(pins, letters)}
                for bits in product((0, 1), repeat=len(pins) + 1):
                    values = dict(zip(pins + "D", bits))
                    for held in (0, 1):
                        wanted = _wanted(family, acts, values, held, reset_to)
                        yield f"{kind} of {values} holding {held}", _loaded(kind, values, held), wanted


def _loaded(kind, values, held):
    """What the flip-flop of an expansion reads, and the cell's output while the flip-flop holds a value."""
    expansion = cells.expansion_of(kind)
    cut = next(gate for gate in expansion.gates if gate.kind == "DFF")
    found = _value(expansion, dict(values, **{cut.name: held}))
    return found[cut.sources[0]], found["Q"]


def _wanted(family, acts, values, held, reset_to):
    """The next value of a flip-flop, and its output."""
    enabled = "E" not in acts or values["E"] == acts["E"]
    resets = "R" in acts and values["R"] == acts["R"]
    asynchronous = family.endswith(" ")
    data = values["D"] if enabled else held
    if resets and (family != "SDFFCE" or enabled):
        data = int(reset_to)
    return data, int(reset_to) if asynchronous and resets else held


def _latches():
    """A latch lets its data through while it is open, and else holds its bit; a reset acts at any time."""
    for enable, reset in product("NP", ("", "N0", "N1", "P0", "P1")):
        expansion = cells.expansion_of(f"$_DLATCH_{enable}{reset}_")
        for E, D, R, held in product((0, 1), repeat=4):
            wanted = D if E == int(enable == "P") else held
            if reset and R == int(reset[0] == "P"):
                wanted = int(reset[1])
            yield f"latch {enable}{reset} of {E}{D}{R} holding {held}", _value(expansion, {"E": E, "D": D, "R": R}, held)["Q"], wanted
    for set_, reset in product("NP", repeat=2):
        expansion = cells.expansion_of(f"$_SR_{set_}{reset}_")
        for S, R, held in ((1, 0, 0), (1, 0, 1), (0, 1, 0), (0, 1, 1), (0, 0, 0), (0, 0, 1)):
            pins = {"S": S ^ (set_ == "N"), "R": R ^ (reset == "N")}
            found = _value(expansion, dict(pins, Q=held, q=1 - held))
            yield f"set-reset latch {set_}{reset} of {S}{R} holding {held}", found["Q"], held if S == R else S


def _refused(folder, run):
    """Designs that can't be translated: each fault is named."""
    cell = lambda kind, **pins: {"type": kind, "connections": {pin: [bit] for pin, bit in pins.items()}}
    port = lambda direction, *bits: {"direction": direction, "bits": list(bits)}
    design = lambda made, **ports: {"modules": {"top": {"ports": ports, "cells": made,
                                    "netnames": {name: {"bits": one["bits"]} for name, one in ports.items()}}}}
    a_y = {"a": port("input", 2), "y": port("output", 3)}
    faulty = [
        (design({"u1": cell("$_TBUF_", A=2, E=2, Y=3), "u2": cell("adder", A=2, Y=3)}, **a_y),
         "cell u1: $_TBUF_ is not translated\ncell u2: adder is not translated; call `flatten` and `synth` first\n"),
        (design({"u": cell("$_ALDFF_PP_", C=2, L=2, AD=2, D=2, Q=3)}, **a_y), "cell u: $_ALDFF_PP_ is not translated\n"),
        (design({}, **a_y), "y is driven by nothing\n"),
        (design({"u": cell("$_NOT_", A=2, Y=3), "v": cell("$_BUF_", A=2, Y=3)}, **a_y), "y is driven twice\n"),
        (design({"u": cell("$_NOT_", A="x", Y=3)}, **a_y), "cell u reads x, which is no value\n"),
        (design({}, a=port("inout", 2)), "port a is an inout\n"),
    ]
    for made, wanted in faulty:
        path = os.path.join(folder, "f.json")
        with open(path, "w", encoding="utf-8") as file:
            json.dump(made, file)
        yield f"refused: {wanted[:40]}", run(["from-yosys", path], folder), (3, "", "".join(f"hazard-look: {line}\n" for line in wanted.splitlines()))
    two = {"modules": {"a": {"ports": {}, "cells": {}, "netnames": {}}, "b": {"ports": {}, "cells": {}, "netnames": {}}}}
    other = "not what `write_json` of yosys writes"
    no_net = {"modules": {"a": {"ports": {"x": port("input", 2)}, "netnames": {}, "cells": {}}}}
    lists = {"modules": {"a": {"ports": [], "netnames": {}, "cells": {}}}}
    for text, wanted in (("{", other), ("[]", other), (json.dumps(no_net), other), (json.dumps(lists), other),
                         (json.dumps(two), "name one of its modules by --top: a, b")):
        path = os.path.join(folder, "f.json")
        with open(path, "w", encoding="utf-8") as file:
            file.write(text)
        yield f"refused: {text[:20]}", run(["from-yosys", path], folder), (3, "", f"hazard-look: {path}: {wanted}\n")
    verilog = os.path.join(folder, "f.v")
    with open(verilog, "w", encoding="utf-8") as file:
        file.write("module f;\n")
    yield "refused: Verilog", run(["from-yosys", verilog], folder), (3, "", f"hazard-look: {verilog}: {other}; `hazard-look from-verilog` reads Verilog\n")
    strange = design({"u": cell("$_AND_", A=2, B="1", Y=3)}, **{"a b,(c)": port("input", 2), "a_b__c_": port("output", 3)})
    with open(path, "w", encoding="utf-8") as file:
        json.dump(strange, file)
    yield "strange names and a constant", run(["from-yosys", path], folder), (
        0, "INPUT(a_b__c_)\nINPUT(const1)  # always 1\nOUTPUT(a_b__c__2)  # a_b__c_ of the design\n"
        "a_b__c__2 = AND(a_b__c_, const1)\n",
        "start a_b__c_=? const1=1\n")


def _enumerated(folder, run):
    """A node with a name of the source text and one that `rename -enumerate` gave keeps the former."""
    nets = {"a": 2, "_0_": 3, "inner": 3, "y": 4, "_1_": 4}
    inverter = lambda source, target: {"type": "$_NOT_", "connections": {"A": [source], "Y": [target]}}
    module = {"ports": {"a": {"direction": "input", "bits": [2]}, "y": {"direction": "output", "bits": [4]}},
              "cells": {"u": inverter(2, 3), "v": inverter(3, 4)},
              "netnames": {name: {"bits": [bit]} for name, bit in nets.items()}}
    path = os.path.join(folder, "e.json")
    with open(path, "w", encoding="utf-8") as file:
        json.dump({"modules": {"top": module}}, file)
    yield "names of the source text first", run(["from-yosys", path], folder), (
        0, "INPUT(a)\nOUTPUT(y)\ninner = NOT(a)\ny = NOT(inner)\n", "start a=?\n")


def _joined_at_random():
    """Gates that are joined keep the functions of those that stay."""
    chance, wrong, fewer = random.Random(11), [], 0
    for number in range(300):
        names, gates = ["a", "b", "c", "d"], []
        for at in range(chance.randint(2, 12)):
            kind = chance.choice(["AND", "OR", "XOR", "NAND", "NOR", "XNOR", "NOT"])
            gates.append(netlist.Gate(f"g{at}", kind, [chance.choice(names[-6:]) for _ in range(1 if kind == "NOT" else 2)]))
            names.append(f"g{at}")
        fixed = {gate.name for gate in gates if chance.random() < 0.3} | {gates[-1].name}
        kept = join.joined(gates, fixed)
        fewer += len(gates) - len(kept)
        before, after = _functions(gates), _functions(kept)
        if not fixed <= set(after) or any(before[name] != bits for name, bits in after.items()):
            wrong.append(number)
    yield "joined gates", (wrong, fewer > 50), ([], True)
    ring = [netlist.Gate("x", "NOT", ["y"]), netlist.Gate("y", "AND", ["x", "a"])]
    yield "a ring of gates without names", join.joined(ring, set()) in ([netlist.Gate("x", "NAND", ["x", "a"])], [netlist.Gate("y", "NAND", ["y", "a"])]), True


def _functions(gates):
    """The values of each gate of a circuit without loops, for all values of its four inputs."""
    values = {name: [state >> at & 1 for state in range(16)] for at, name in enumerate("abcd")}
    for gate in gates:
        pins = zip(*(values[source] for source in gate.sources))
        values[gate.name] = [network.gate_value(gate.kind, sum(bits), len(bits)) for bits in pins]
    return values


def _joined(folder, run):
    """A flip-flop of NANDs, which yosys splits, comes back as it was written."""
    if not shutil.which("yosys"):
        print("skipped: joined gates of yosys: it is not installed")
        return
    wanted = {"sb": "NAND(rb, s)", "s": "NAND(sb, ck, clear)", "r": "NAND(s, ck, rb)", "rb": "NAND(r, d, clear)", "q": "NAND(s, qb)", "qb": "NAND(q, r, clear)"}
    text = "".join(f"  nand ({name}, {pins.removeprefix('NAND(')};\n" for name, pins in wanted.items())
    with open(os.path.join(folder, "join.v"), "w", encoding="ascii") as file:
        file.write(f"module top(input ck, d, clear, output q, qb);\n  wire s, sb, r, rb;\n{text}endmodule\n")
    words = "read_verilog join.v; synth -flatten -noabc -top top; opt_clean; rename -enumerate; write_json join.json"
    subprocess.run(["yosys", "-q", "-p", words], cwd=folder, stdout=subprocess.DEVNULL, stderr=subprocess.DEVNULL, check=True)
    status, found, _ = run(["from-yosys", "--join", "join.json"], folder)
    # the order of pins is that of the version of yosys
    made = dict(line.partition("  #")[0].split(" = ") for line in found.splitlines() if " = " in line)
    pins = lambda gates: {name: sorted(re.findall(r"\w+", gate)) for name, gate in gates.items()}
    yield "joined gates of yosys", (status, pins(made)), (0, pins(wanted))


def _write(folder, name, text):
    """A file with a text, by its path."""
    path = os.path.join(folder, name)
    with open(path, "w", encoding="utf-8") as file:
        file.write(text)
    return path


def _other_names(folder, run):
    """An output that shares its node with another one is asked for by the name that the design has for it."""
    bench = _write(folder, "other.bench", "INPUT(a)\nOUTPUT(z)  # y[3] of the design\nOUTPUT(z)\nz = NOT(a)\n")
    text = _write(folder, "other.txt", "start a=0\nchange a=1 #expect y[3] clean\n")
    for words, front in ((["summary", bench, text, "--only", "y[3]"], "--only: "), (["why", bench, text, "y[3]"], ""),
                         (["expect", bench, text], f"{text}:2: ")):
        told = f"hazard-look: {front}no node is named y[3] (it is z)\n"
        yield f"{words[0]} of a node with another name", run(words, folder), (2, "", told)


def _clock_behind_feedback(folder, run):
    """A clock of class `change` may make more than one edge, unless the rule of one edge covers it, as it covers `q`."""
    bench = _write(folder, "behind.bench", "INPUT(r)\nINPUT(s)\nq = NOR(r, p)\np = NOR(s, q)\ng = XOR(q, p, s)\n"
                                           "a = DFF(b)  # clock q rising\nb = DFF(a)  # clock g rising\n")
    text = "start r=0 s=0 q=0 a=1 b=1\nchange s=1\n"
    warning = f"hazard-look: {folder}/behind.txt:2: the clock g may pulse, and the script has no edge for it: flip-flop b\n"
    yield "a clock behind feedback", run(["clock", bench, _write(folder, "behind.txt", text)], folder), (0, text, warning)
