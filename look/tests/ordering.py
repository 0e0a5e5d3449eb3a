"""Orders of wires: what `orders` proposes, what the jobs say of a script with orders, and that the runs of `why` keep them."""
import itertools
import json
import os
import random
import re

from hazard_look import circuit, kept, network, ranks, report, runtext
from hazard_look import summary as summary_of

LATCH = """INPUT(d)\nINPUT(clk)\nn4 = NOT(dn)\ncn = NOT(clk)\nn1 = NOT(d)\nq_bar = NAND(q, n6)\nq = NAND(q_bar, n5)\nn6 = NAND(n4, cn)
n5 = NAND(dn, cn)\nq_bar_n = NAND(dn, n3)\ndn = NAND(q_bar_n, n2)\nn3 = NAND(n1, clk)\nn2 = NAND(d, clk)\n"""
PRESET = """INPUT(d)\nINPUT(en)\nINPUT(clr)\nINPUT(pre)\nn6 = NOT(n20)\nn7 = NOT(n6)\nn8 = AND(n6, n12)\nn9 = AND(n7, q)\nq = OR(n8, n9)
n10 = NOT(clr)\nn11 = AND(n10, n16)\nn12 = BUFF(n11)\nn13 = NOT(pre)\nn14 = AND(n13, d)\nn15 = BUFF(pre)\nn16 = OR(n14, n15)\nn17 = NOT(clr)
n18 = NOT(pre)\nn19 = NOT(en)\nn20 = AND(n17, n18, n19)\n"""
STARTS = "start r=1 s=1\norder z(1) z(2)\nchange r=0 s=0\nchange s=1\nstart r=1 s=0\nchange s=1 #expect q steady\nchange r=0 s=0\nchange r=1 #expect settled\n"
# What no order mends, as the wires that race come from different inputs, or there is no hazard at all.
STAY = {"mutex": "no order helps; left: 4 hazards: free1 unsettled in change 1, ", "latch": "no order helps; left: 2 hazards: q unsettled in change 1, ",
        "celement": "no hazard, so no order is needed\n"}


def pipeline(stages):
    """A Muller pipeline, each C element of four gates, and a script in which all of it empties."""
    lines, nodes = ["INPUT(req)", "INPUT(ack)"], ""
    for at in range(1, stages + 1):
        before = f"c{at - 1}" if at > 1 else "req"
        lines += [f"n{at} = NOT({f'c{at + 1}' if at < stages else 'ack'})", f"c{at}.ab = AND({before}, n{at})", f"c{at}.ac = AND({before}, c{at})", f"c{at}.bc = AND(n{at}, c{at})",
                  f"c{at} = OR(c{at}.ab, c{at}.ac, c{at}.bc)"]
        nodes += f" c{at}=1"
    return "\n".join(lines) + "\n", f"start req=1 ack=0{nodes}\nchange ack=1\nchange req=0\n"


def rows(folder, run, call, write, hazard, example, circuits, model):
    """Rows of name, found, wanted."""
    yield from _proposed(folder, call, write, example)
    yield from _jobs(folder, run, call, write, example)
    yield from _rounds(folder, write, hazard, circuits, model)
    yield from _kept(folder, call, write, hazard, circuits, model)
    yield from _all_alone(folder, call, write, hazard, circuits, model)


def _proposed(folder, call, write, example):
    """What is proposed, and what is left under it."""
    muller = pipeline(4)
    cases = {"flipflop": example("flipflop") + [["order r(2) r(1)"]], "clockgate": example("clockgate") + [["order hold(2) hold(1)", "order gated(1) gated(2)"]],
             "latch of NANDs": [write(folder, "d.bench", LATCH), write(folder, "d.txt", "start d=1 clk=0 q=0 dn=0\nchange clk=1\n"), ["order n5(2) n5(1)"]],
             "latch with a preset": [write(folder, "p.bench", PRESET), write(folder, "p.txt", "start d=1 en=1 clr=0 pre=0 q=1\nchange pre=1\n"), ["order n16(2) n16(1)"]],
             "pipeline": [write(folder, "m.bench", muller[0]), write(folder, "m.txt", muller[1]),
                          ["order c1.ab(1) c1.ab(2)", "ideal c1.bc(2)", "ideal c2.ab(1)", "ideal c2.bc(2)", "ideal c3.ab(1)", "ideal c3.bc(2)"]]}
    for name, (bench, script, lines) in cases.items():
        status, text = call(["orders", "--json", bench, script])
        told = json.loads(text)
        yield f"orders for {name}", (status, [one["line"] for one in told["orders"]], told["after"]["hazards"], told["kept not shown"]), (0, lines, 0, [])
        yield f"calls for {name}", told["calls"] <= 30, True
        saved = os.path.join(folder, "saved.txt")
        yield f"lines for {name}", [line for line in call(["orders", bench, script, "--write", saved])[1].splitlines() if line.startswith(("order ", "ideal "))], lines
        yield f"nothing to add for {name}", call(["orders", bench, saved])[1], "no hazard, so no order is needed\n"
        for line in lines:
            with open(saved, encoding="utf-8") as file:
                less = write(folder, "less.txt", "".join(row for row in file if not row.startswith(line)))
            yield f"{line} is needed for {name}", call(["summary", "--fail", bench, less])[0], 1
    for name, said in STAY.items():
        status, text = call(["orders"] + example(name))
        yield f"orders for {name}", (status, text[:len(said)]), (0, said)
        yield f"what may help {name}", "y = DFF(yn)" in text, "unsettled" in text
        yield f"orders for {name} that are to fail", call(["orders", "--fail"] + example(name))[0], int("left" in said)
    sentence = "wire r(2) no later than s(2), s, r(1): 1 wire against 1 gate and 2 wires"
    yield "the sentence", call(["orders"] + example("flipflop")), (0, f"{sentence}; in changes 3, 5\norder r(2) r(1)\nbefore: 3 hazards; left: none\n")
    yield "changes in which the second wire can move", [line.split("; ")[-1] for line in call(["orders"] + example("clockgate"))[1].splitlines() if "; in" in line], ["in changes 2, 5"] * 2
    same = [write(folder, "s.bench", "INPUT(b)\nINPUT(a)\nn = NOT(a)\nx = OR(b, a)\ny = BUFF(x)\nz = AND(n, y)\n"), write(folder, "s.txt", "start a=0 b=0\nchange a=1 b=1\n")]
    yield "paths from one input", call(["orders"] + same)[1].split(":")[0], "n(1), n, z(1) no later than x(2), x, y(1), y, z(2)"
    waves = call(["why", os.path.join(folder, "m.bench"), os.path.join(folder, "m.txt"), "c1", "2"])[1]
    yield "a long waveform", ("wires are not drawn" in waves, re.findall(r"^\S+\(\d+\) +[-_~/\\\\]+$", waves, re.M)), (True, [])
    yield from _exact(folder, call, write, example)
    yield "an order that mends", call(["why"] + example("flipflop") + ["q"])[1].splitlines()[-1], f"order r(2) r(1) alone makes q clean (it keeps 1): {sentence}"


def _exact(folder, call, write, example):
    """The exact form of a sentence: all orders of a gate of which each alone is enough, or some that are enough together."""
    three = write(folder, "t.bench", "INPUT(a)\nn = NOT(a)\ny1 = BUF(a)\ny2 = BUF(y1)\nz = AND(y2, a, n)\nx = XOR(a, n, y2)\n")
    micro, muller = write(folder, "c.bench", pipeline(2)[0]), write(folder, "c.txt", pipeline(2)[1])
    up = write(folder, "t.txt", "start a=0\nchange a=1\n")
    cases = [("a conjunction", [three, up, "z"], ["order z(3) z(1) alone makes z clean: n(1), n, z(3) no later than y1(1), y1, y2(1), y2, z(1): 1 gate and 2 wires against 2 gates and 3 wires",
                                                  "order z(3) z(2) alone makes z clean: n(1), n, z(3) no later than wire z(2): 1 gate and 2 wires against 1 wire"]),
             ("no order", [three, up, "x"], ["no order of wires was found that makes x clean"]), ("a race", example("latch") + ["q"], ["no order of wires was found that makes q clean"]),
             ("a static hazard", example("multiplexer") + ["z"], ["order z(2) z(1) alone makes z clean: n(1), n, b(1), b, z(2) no later than a(1), a, z(1): 2 gates and 3 wires against 1 gate and 2 wires"]),
             ("an unsettled node", [micro, muller, "c1", "2"], ["together these make c1 clean (it goes to 0), and none of them can go:", "order c1.ab(1) c1.ab(2)", "ideal c1.bc(2)"])]
    for name, words, wanted in cases:
        lines = call(["why"] + words)[1].splitlines()[-len(wanted):]
        yield f"the exact form of {name}", [line.strip()[:len(part)] for line, part in zip(lines, wanted)], wanted
    yield "a clean node needs none", "order" in call(["why", three, up, "n"])[1], False


def _all_alone(folder, call, write, hazard, circuits, model):
    """On random circuits: of a root with a hazard `why` names each order of two of its wires that alone makes it clean, as calls of `hazard` say."""
    told, alone = 0, re.compile(r"^order (\S+) (\S+) alone makes", re.M)
    for name, one in circuits.random_circuits(model, 100, seed=72):
        bench, script = write(folder, "e.bench", one.netlist()), write(folder, "e.txt", one.script())
        change = next(hazard.edges(bench, script).changes)
        read = circuit.load(bench)
        roots, looped = summary_of.roots(read, [row.name for row in change.rows.values() if row.kind not in ("steady", "single")]), set().union(*read.loops())
        for node in sorted(roots - looped):
            pins, start = [f"{node}({at + 1})" for at in range(len(read.gate_of[node].sources))], one.script().split("change")
            mended = {pair for pair in itertools.permutations(pins, 2) if _is_clean(hazard, bench, f"{start[0]}order {pair[0]} {pair[1]}\nchange{start[1]}", node)}
            found = set(alone.findall(call(["why", bench, script, node])[1]))
            yield f"orders for {node} of {name}", found, mended
            told += bool(found)
    yield "roots with orders", told > 10, True


def _is_clean(hazard, bench, text, node):
    change, = hazard.edges_of_text(bench, text)
    return change.kept and change.rows[node].kind in ("steady", "single")


def _jobs(folder, run, call, write, example):
    """Jobs on a script with orders and two starts."""
    bench, script = example("latch")[0], write(folder, "two.txt", STARTS)
    odd = run(["summary", bench, write(folder, "odd.txt", "start r=1 s=1\nideal q\nchange r=0\n")], folder)
    yield "a word that is no wire", (odd[0], odd[2].splitlines()[-1]), (4, "hazard-look: hazard: refused: script line 2: unknown name; a wire is a gate with the number of its pin, as `q(2)`")
    with open(bench, encoding="utf-8") as file:
        beside = write(folder, "beside.bench", file.read() + "z = AND(r, s)\n")
    summary = call(["summary", beside, script])[1].splitlines()
    yield "summary", [line for line in summary if line[:1].isdigit() or "under" in line], [
        "1 r=0 s=0: 2 hazards: q unsettled, qb unsettled", "  under order z(1) z(2)", "3 s=1: clean", "4 r=0 s=0: 2 hazards: q unsettled, qb unsettled", "  under order z(1) z(2)",
        "2: not analysed, q did not settle in change 1", "5: not analysed, q did not settle in change 4"]
    data = json.loads(call(["summary", "--json", beside, script])[1])
    yield "summary as data", ([change.get("under") for change in data["changes"]], data["not analysed"]["more"]), (
        [["z(1) z(2)"], None, ["z(1) z(2)"]], [{"first": 5, "last": 5, "node": "q"}])
    status, text = call(["expect", beside, script])
    yield "expect", (status, text.splitlines()[-2:]), (1, [
        f"{script}:8: change 5 is not analysed, q did not settle in change 4: 1 expectation not checked", "2 expectations, 0 failed, 1 not checked"])
    page = json.loads(re.search(r"^const DATA = (.*);$", call(["page", beside, script])[1], re.M)[1])
    yield "page", [change.get("under") for change in page["changes"]], [["under order z(1) z(2)"], None, None, ["under order z(1) z(2)"], None]
    gate, lines = write(folder, "or.bench", "INPUT(a)\nINPUT(b)\ng = OR(a, b)\n"), ["start a=0 b=0\n", "order g(1) g(2)\n", "change a=1 b=1  #expect never g=1 a=0\n"]
    for name, kept_lines, status in (("with", lines, 0), ("without", lines[::2], 1)):
        yield f"a state {name} an order that bars it", call(["expect", gate, write(folder, "never.txt", "".join(kept_lines))])[0], status
    stuck = write(folder, "stuck.txt", "start r=0 s=1\norder q(2) q(1)\nchange r=1 s=0  #expect q steady\n")
    yield "no run that keeps an order", call(["expect", bench, stuck]), (
        1, f"{stuck}:3: change 1 r=1 s=0: q steady: not checked: {summary_of.NOT_KEPT} ({bench}:7)\n1 expectation, 0 failed, 1 not checked\n")
    yield "no run to show", call(["why", bench, stuck, "s"])[1].splitlines()[1:], [
        "  under order q(2) q(1)", f"  {summary_of.NOT_KEPT}", "  no run that keeps the orders was found in which s moves so, which is no proof that there is none"]
    yield "a finding without a run", call(["summary", "--fail", bench, stuck])[:2], (1, f"{stuck}:3: change 1 r=1 s=0: {summary_of.NOT_KEPT}\n")
    both = write(folder, "both.txt", "start r=1 s=1\nchange r=0\nstart r=1 s=1\nchange s=0 #expect q steady in 1..2\n")
    yield "a range over a start", run(["expect", bench, both], folder), (2, "", f"hazard-look: {both}:4: `q steady in 1..2`: a start stands between these changes\n")
    yield "no table of two starts", "a table begins at one start" in run(["table", bench, both], folder)[2], True
    clocked = write(folder, "ck.bench", "INPUT(ck)\nn = NOT(q)\nq = DFF(n)  # clock ck rising\nz = AND(ck, q)\n")
    edges = write(folder, "ck.txt", "start ck=0 q=0\norder z(1) z(2)\n#clock ck\nstart ck=0 q=1\n#clock ck\n")
    yield "clock", call(["clock", clocked, edges])[1].splitlines(), [
        "start ck=0 q=0", "order z(1) z(2)", "change ck=1  #edge ck=1", "change q=1  #edge goes on", "start ck=0 q=1", "change ck=1  #edge ck=1", "change q=0  #edge goes on"]


def _rounds(folder, write, hazard, circuits, model):
    """The plain rounds of A and B are those of the report."""
    for name, one in circuits.random_circuits(model, 100, seed=31):
        bench, script = write(folder, "r.bench", one.netlist()), write(folder, "r.txt", one.script())
        change = next(hazard.edges(bench, script).changes)
        found = ranks.Ranks(network.Network(circuit.load(bench)), change.rows)
        yield f"A of {name}", [at in found.round for at in range(len(change.rows))], [row.moves() for row in change.rows.values()]
        yield f"B of {name}", ["X" if bit is None else str(bit) for bit in found.end[:len(change.rows)]], [row.end for row in change.rows.values()]


def _kept(folder, call, write, hazard, circuits, model):
    """The runs that `why` shows under orders by chance: each keeps them, by a plain count."""
    chance, shown = random.Random(6), 0
    for name, one in circuits.random_circuits(model, 120, seed=61):
        bench = write(folder, "k.bench", one.netlist())
        gates = [gate for gate in circuit.load(bench).gates if len(gate.sources) > 1]
        pins = lambda gate: (f"{gate.name}({pin})" for pin in chance.sample(range(1, len(gate.sources) + 1), 2))
        orders = {report.Order(*pins(gate), chance.choice((1, 1, 2))) for gate in chance.sample(gates, min(len(gates), 3))}
        lines = "".join(f"order {order.spelt()}\n" for order in sorted(orders))
        script = write(folder, "k.txt", lines + one.script())
        change = next(hazard.edges(bench, script).changes)
        if not change.used:
            continue
        row = max(change.rows.values(), key=lambda row: report.CLASSES.index(row.kind))
        saved = os.path.join(folder, "k.runs")
        yield f"why of {name}", call(["why", bench, script, row.name, "--save", saved])[0], 0
        if os.path.exists(saved):
            with open(saved, encoding="utf-8") as file:
                runs = runtext.read(file.read().splitlines()).runs
            os.remove(saved)
            shown += len(runs)
            yield f"runs of {name}", [order for order in change.used for found in runs if not _keeps(order, found.lead + 3 * (found.cycle or []))], []
            keeper, number = kept.Keeper(network.Network(circuit.load(bench)), change.used), network.Network(circuit.load(bench)).number
            yield f"keeper of {name}", all(keeper.keeps([[number[word] for word in step] for step in found.lead]) for found in runs), True
    yield "runs under orders", shown > 50, True


def _keeps(order, steps):
    """Whether the second wire makes its change of a number no earlier than the first one changes."""
    count = {order.first: 0, order.second: 0}
    for step in steps:
        for word in step:
            count[word] = count.get(word, 0) + 1
        if count[order.second] >= order.number and not count[order.first]:
            return False
    return True
