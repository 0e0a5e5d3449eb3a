"""What `why` says besides delays: whether a hazard is one of the function, which term covers it, and a testbench that shows it."""
import os
import random
import re
import shutil
import subprocess
from itertools import combinations

from hazard_look import netlist, network

# a machine of Huffman's kind, in which z has an essential hazard if a and b rise together
HUFFMAN = "INPUT(a)\nINPUT(b)\nboth = AND(a, b)\nhold = AND(b, y)\ny = OR(both, hold)\nna = NOT(a)\nz = AND(na, b, y)\n"
# the same by three gates of delay in the feedback
PADDED = HUFFMAN.replace("hold = AND(b, y)", "y1 = BUFF(y)\ny2 = BUFF(y1)\nhold = AND(b, y2)").replace("z = AND(na, b, y)", "z = AND(na, b, y2)")
MEETING = "INPUT(s)\nn = NOT(s)\nh = AND(s, n)\nz = BUFF(h)\n"


def rows(folder, call, write, hazard):
    """Rows of name, found, wanted."""
    yield from _functions(folder, call, write, hazard)
    yield from _said(folder, call, write)
    yield from _testbenches(folder, call, write, hazard)


def _circuits(count, seed):
    """Random circuits without loops, each with a change of one to three inputs."""
    chance = random.Random(seed)
    for number in range(count):
        names, rows = list("abcde"), []
        for at in range(chance.randint(4, 12)):
            kind = chance.choice(["AND", "OR", "NAND", "NOR", "XOR", "NOT"])
            rows.append(netlist.Gate(f"g{at}", kind, chance.sample(names[-7:], 1 if kind == "NOT" else chance.randint(2, 3))))
            names.append(f"g{at}")
        start = {name: chance.randint(0, 1) for name in "abcde"}
        yield number, rows, start, chance.sample("abcde", chance.randint(1, 3))


def _text(rows, more=""):
    return "".join(f"INPUT({name})\n" for name in "abcde") + "".join(f"{gate.name} = {gate.kind}({', '.join(gate.sources)})\n" for gate in rows) + more


def _script(start, changed):
    return "start" + "".join(f" {name}={bit}" for name, bit in start.items()) + "\nchange" + "".join(f" {name}={1 - start[name]}" for name in changed) + "\n"


def _value(rows, inputs, node):
    values = dict(inputs)
    for gate in rows:
        values[gate.name] = network.gate_value(gate.kind, sum(values[source] for source in gate.sources), len(gate.sources))
    return values[node]


def _functions(folder, call, write, hazard):
    """On random circuits, beside all values between the old inputs and the new ones; and a term that is told makes the node steady."""
    told = {"function": 0, "logic": 0, "term": 0}
    for number, gates, start, changed in _circuits(120, seed=5):
        bench, script = write(folder, "c.bench", _text(gates)), write(folder, "c.txt", _script(start, changed))
        change = next(hazard.edges(bench, script).changes)
        for row in [row for row in change.rows.values() if row.kind in ("static", "dynamic")][:2]:
            line = call(["why", bench, script, row.name])[1].splitlines()[1]
            kind = "function" if _is_of_function(gates, start, changed, row) else "logic"
            yield f"hazard of {row.name} in {number}", line.startswith(f"  a {kind} hazard"), True
            told[kind] += 1
            term = re.search(r"a term that is ([01]) at (\S+=[01](?: \S+=[01])*) would", line)
            if term:
                told["term"] += 1
                yield f"a term for {row.name} in {number}", _covered(folder, write, hazard, gates, start, changed, row.name, term), "steady"
    print("covers:", ", ".join(f"{count} {kind}" for kind, count in told.items()))
    yield "enough hazards of each kind", min(told.values()) > 5, True


def _is_of_function(gates, start, changed, row):
    """Whether the function goes to the new value and back on some way from the old inputs to the new ones, or from a steady one away."""
    at = lambda moved: _value(gates, {name: bit ^ (name in moved) for name, bit in start.items()}, row.name)
    sets = [set(some) for size in range(len(changed) + 1) for some in combinations(changed, size)]
    old = int(row.start)
    if row.kind == "static":
        return any(at(some) != old for some in sets)
    return any(at(some) != old and at(more) == old for some in sets for more in sets if some < more)


def _covered(folder, write, hazard, gates, start, changed, node, term):
    """The class of a node behind a gate that a term covers."""
    bit, held = int(term[1]), [word.split("=") for word in term[2].split()]
    pins = [name if int(value) == bit else f"not_{name}" for name, value in held]
    more = "".join(f"not_{name} = NOT({name})\n" for name, value in held if int(value) != bit)
    more += f"term = {'AND' if bit else 'OR'}({', '.join(pins)})\ncovered = {'OR' if bit else 'AND'}({node}, term)\n"
    bench, script = write(folder, "t.bench", _text(gates, more)), write(folder, "t.txt", _script(start, changed))
    return next(hazard.edges(bench, script).changes).rows["covered"].kind


def _said(folder, call, write):
    """Sentences that a designer asked for."""
    script = write(folder, "h.txt", "start a=0 b=0 y=0\nchange a=1 b=1\n")
    plain, padded = (call(["why", write(folder, "h.bench", text), script, "z"])[1] for text in (HUFFMAN, PADDED))
    essential = "  an essential hazard: an input's own way is slower than its way through the feedback; delay in the feedback takes it away"
    for name, text in (("plain", plain), ("padded", padded)):
        yield f"an essential hazard, {name}", essential in text.splitlines(), True
    yield "the way through the feedback", ("a, na(1), na, z(1) are slower" in plain, "y(1), y, z(3), z," in plain, "y2(1), y2, z(3), z," in padded), (True, True, True)
    text = call(["why", write(folder, "m.bench", MEETING), write(folder, "m.txt", "start s=0\nchange s=1\n"), "z"])[1].splitlines()
    yield "a pulse that goes on", text[4:6], ["  z pulses if n(1), n, h(2) are slower than h(1), h: 1 gate and 2 wires against 1 gate and 1 wire",
                                              "    and also with each of z(1), z in place of h: by these the pulse goes on"]
    three = [f"INPUT(a)\nn = NOT(a)\ny1 = BUF(a)\ny2 = BUF(y1)\ny3 = BUF(y2)\nz = AND({pins})\n" for pins in ("n, a, y3", "n, y3, a", "y3, a, n")]
    texts = [call(["why", write(folder, "t.bench", one), write(folder, "t.txt", "start a=0\nchange a=1\n"), "z"])[1] for one in three]
    found = [[re.sub(r"\(\d\)", "", line) for line in text.splitlines() if line.startswith("  ")][1:5] for text in texts]
    yield "all pins of an edge, in any order", found, 3 * [["  z pulses if", "    n, n, z are slower, 1 gate and 2 wires,",
        "      than y1, y1, y2, y2, y3, y3, z, z, 4 gates and 4 wires,", "      than z, z, 1 gate and 1 wire"]]


def _testbenches(folder, call, write, hazard):
    """The testbench of a node shows in iverilog what `why` says."""
    if not shutil.which("iverilog"):
        print("skipped: testbenches: iverilog is not installed")
        return
    shown = 0
    for number, gates, start, changed in _circuits(40, seed=6):
        bench, script = write(folder, "b.bench", _text(gates)), write(folder, "b.txt", _script(start, changed))
        change = next(hazard.edges(bench, script).changes)
        for row in [row for row in change.rows.values() if row.kind in ("static", "dynamic")][:1]:
            status, text = call(["testbench", bench, script, row.name])
            if status == 0 and "one edge; no run" not in text:
                edges, end = _simulated(folder, write, text)
                shown += 1
                yield f"testbench of {row.name} in {number}", (edges >= (2 if row.kind == "static" else 3), end), (True, row.end)
    yield "enough testbenches", shown > 10, True
    latch = write(folder, "l.bench", "INPUT(r)\nINPUT(s)\nq = NOR(r, qb)\nqb = NOR(s, q)\n")
    text = call(["testbench", latch, write(folder, "l.txt", "start r=1 s=1\nchange r=0 s=0\n"), "q"])[1]
    yield "testbench of a race", _simulated(folder, write, text), (0, "0")
    yield "testbench of a node that is steady", call(["testbench", latch, write(folder, "l.txt", "start r=0 s=0 q=0\nchange r=1\n"), "q"])[0], 2


def _simulated(folder, write, text):
    """How often the node of a testbench moves in iverilog, and where it ends."""
    program = os.path.join(folder, "b.out")
    subprocess.run(["iverilog", "-o", program, write(folder, "b.v", text)], check=True)
    last = subprocess.run(["vvp", "-n", program], cwd=folder, stdout=subprocess.PIPE, check=True).stdout.decode().splitlines()[-1]
    found = re.match(r"(\d+) edges, ends at (.)", last)
    return int(found[1]), found[2]
