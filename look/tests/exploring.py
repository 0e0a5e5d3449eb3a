"""Flow tables: `hazard explore` against the states that calls of `hazard edges` find, one change after the other; and the table."""
import json
import os
import re
from collections import Counter

from hazard_look import exploration, graph, netlist, start, table
from hazard_look.errors import Failure
from hazard_look.lines import assignments, spelt
from hazard_look.moves import is_clean

CLASSES = ("single", "static", "dynamic", "maybe-dynamic")


def explored(hazard, bench, script):
    """The lines of `hazard explore` without its head, found by a call of `hazard edges` for each change."""
    with open(bench, encoding="utf-8") as file:
        circuit = netlist.read(file.read())
    with open(script, encoding="utf-8") as file:
        statements = [line.partition("#")[0].split() for line in file]
    bursts = [assignments(words[1:]) for words in statements if words[:1] == ["change"]] or [{name: bit} for name in circuit.inputs for bit in (0, 1)]
    states, told, counts = [hazard.edges(bench, script).start], [], Counter()
    for number, values in enumerate(states, 1):
        told.append(f"state {number}{spelt(values)}")
        for burst in bursts:
            if burst and all(values[name] != bit for name, bit in burst.items()):
                rows = _rows(hazard, bench, circuit, values, burst)
                told.append(f"{number} {_change(rows, burst, states, counts)}")
    return told + [f"all states {len(states)} changes {sum(counts.values())}" + "".join(f" {kind} {counts[kind]}" for kind in ("clean", "hazards", "unsettled"))]


def _rows(hazard, bench, circuit, values, burst):
    """The rows of a burst in a state."""
    listed = {name: values[name] for name in start.nodes_of(circuit)}
    change, = hazard.edges_of_text(bench, f"start{spelt(listed)}\nchange{spelt(burst)}\n")
    return list(change.rows.values())


def _change(rows, burst, states, counts):
    """The line of a change, without the number of its state. A state that was not seen before gets the next number."""
    unsettled = next((row.name for row in rows if row.end == "X"), None)
    if unsettled:
        counts["unsettled"] += 1
        return f"unsettled{spelt(burst)} {unsettled}"
    counts["clean" if all(map(is_clean, rows)) else "hazards"] += 1
    values = {row.name: int(row.end) for row in rows}
    if values not in states:
        states.append(values)
    kinds = Counter(row.kind for row in rows)
    return f"to {states.index(values) + 1}{spelt(burst)}" + "".join(f" {kind} {kinds[kind]}" for kind in CLASSES)


LATCH = "INPUT(r)\nINPUT(s)\nOUTPUT(q)\nq = NOR(r, qb)\nqb = NOR(s, q)\n"
# the text of an exploration in which no state has a number beyond the second
CUT = """netlist inputs 1 gates 1 wires 1 variables 3
start a=0 z=1
state 1 a=0 z=1
1 to 2 a=1 single 2 static 0 dynamic 0 maybe-dynamic 0
state 2 a=1 z=0
2 to more a=0 single 1 static 1 dynamic 0 maybe-dynamic 2
part states 2 changes 2 clean 1 hazards 1 unsettled 0
"""
# an exploration of a script with an order and a wire without delay, as `hazard` writes it
GATES = "INPUT(a)\nINPUT(b)\nOUTPUT(z)\nn = NOT(a)\nz = AND(a, n)\ny = AND(b, z)\n"
ASSUMING = "start a=0 b=0\norder z(2) z(1) # n before a\nideal  y ( 1 )\nchange a=1\nchange a=0\nchange b=1\nchange b=0\n"
UNDER = """netlist inputs 2 gates 3 wires 5 variables 10
start a=0 b=0 n=1 z=0 y=0
state 1 a=0 b=0 n=1 z=0 y=0
1 to 2 a=1 single 2 static 0 dynamic 0 maybe-dynamic 0 maybe-static 0 used 1
1 to 3 b=1 single 1 static 0 dynamic 0 maybe-dynamic 0 maybe-static 0
state 2 a=1 b=0 n=0 z=0 y=0
2 to 1 a=0 single 2 static 1 dynamic 0 maybe-dynamic 0 maybe-static 0 used 1
2 to more b=1 single 1 static 0 dynamic 0 maybe-dynamic 0 maybe-static 0
state 3 a=0 b=1 n=1 z=0 y=0
3 to 4 a=1 single 2 static 0 dynamic 0 maybe-dynamic 0 maybe-static 1 used 1 2
state 4 a=1 b=1 n=0 z=0 y=0
4 unsettled a=0 z used 2
4 to 3 b=0 single 1 static 0 dynamic 0 maybe-dynamic 0 maybe-static 0 used 1 2 not shown
part states 4 changes 7 clean 3 hazards 3 unsettled 1
"""


def is_known(hazard, example):
    """Whether the program has the job."""
    try:
        hazard.explore(*example("latch"))
    except Failure as failure:
        print(f"skipped: flow tables: {failure}")
        return False
    return True


def rows(folder, run, write, hazard, example, circuits, model):
    """Rows of name, found, wanted."""
    yield from _read()
    yield from _under(folder, run, write, hazard)
    if not is_known(hazard, example):
        return
    latch = write(folder, "l.bench", LATCH)
    yield "the table of a latch", run(["table", latch, write(folder, "l.txt", "start r=0 s=0 q=1\n")], folder)[:2], (0, (
        "state          r=0  r=1  s=0  s=1\n1 r=0 s=0 q=1  (1)  2    (1)  3\n"
        "2 r=1 s=0 q=0  4    (2)  (2)  5\n3 r=0 s=1 q=1  (3)  5    1    (3)\n4 r=0 s=0 q=0  (4)  2    (4)  3\n5 r=1 s=1 q=0  3    (5)  2    (5)\n"
        f"{table.LEGEND}\n\n5 states; 10 changes: 10 clean, 0 with hazards, 0 unsettled\n"))
    race = write(folder, "r.txt", "start r=0 s=0 q=1\nchange r=1 s=1 # both\nchange r=0 s=0\nchange s=1 r=1\nchange r=1\n")
    yield "the table of a race", run(["table", latch, race], folder)[:2], (0, (
        f"state          r=1 s=1  r=0 s=0  r=1\n1 r=0 s=0 q=1  2!       (1)      3\n2 r=1 s=1 q=0  (2)      ?        (2)\n"
        f"3 r=1 s=0 q=0  -        -        (3)\n{table.LEGEND}\n\n"
        "state 1, r=1 s=1: 1 node static, 1 node maybe-dynamic\n  start r=0 s=0 q=1\n  change r=1 s=1\n"
        "state 2, r=0 s=0: q is unsettled\n  start r=1 s=1 q=0\n  change r=0 s=0\n\n3 states; 3 changes: 1 clean, 1 with hazards, 1 unsettled\n"))
    yield "a table that fails", run(["table", "--fail", latch, race], folder)[:2], (
        1, f"{race}:2: state 1 r=0 s=0 q=1, r=1 s=1: 1 node static, 1 node maybe-dynamic\n{race}:3: state 2 r=1 s=1 q=0, r=0 s=0: q is unsettled\n2 findings\n")
    edge = write(folder, "e.txt", "start r=0 s=0 q=1\n#clock r\n")
    yield "an edge in a table", run(["table", latch, edge], folder)[:2], (2, "")
    yield from _odd(folder, run, write, latch)
    yield from _really_under(folder, run, write, hazard)
    for name in ("mutex", "celement"):
        yield from _as_found(hazard, name, *example(name))
    for name, circuit in circuits.random_circuits(model, 12, seed=17, gates=(2, 5)):
        script = "start" + circuit.script().split("start", 1)[1].split("\n")[0] + "\n"
        yield from _as_found(hazard, name, write(folder, "x.bench", circuit.netlist()), write(folder, "x.txt", script))


def _odd(folder, run, write, latch):
    """Files that are none, a circuit in which nothing can happen, and more findings than are shown."""
    held, empty = write(folder, "h.bench", "q = OR(q)\n"), write(folder, "h.txt", "start q=1\n")
    for name, files, status in (("no script", [latch, "none"], 6), ("no netlist", ["none", empty], 6), ("an empty script", [latch, write(folder, "n.txt", "")], 4), ("a strange script", [latch, held], 4)):
        found, out, errors = run(["table"] + files, folder)
        yield f"a table of {name}", (found, out, errors.splitlines()[-1].startswith("hazard-look: ")), (status, "", True)
    yield "a table without changes", run(["table", held, empty], folder)[:2], (0, f"state\n1 q=1\n{table.LEGEND}\n\n1 state; 0 changes: 0 clean, 0 with hazards, 0 unsettled\n")
    yield "a page without changes", run(["table", "--page", held, empty], folder)[0], 2
    count = 20
    wide = write(folder, "w.bench", "".join(f"INPUT(a{at})\nn{at} = NOT(a{at})\nz{at} = AND(a{at}, n{at})\n" for at in range(count)))
    script = write(folder, "w.txt", "start" + "".join(f" a{at}=0" for at in range(count)) + "\n" + "".join(f"change a{at}=1\n" for at in range(count - 15)))
    lines = run(["table", wide, script], folder)[1].splitlines()
    yield "a wide table", (lines[1].endswith(" ..   2!    3!    4!    5!    6!"), lines[-3:]), (True, [".. and 68 more, which --all has", "", "32 states; 80 changes: 0 clean, 80 with hazards, 0 unsettled"])
    yield "all of a wide table", run(["table", "--all", wide, script], folder)[1].count("  change a"), 80


def _under(folder, run, write, hazard):
    """A table under assumptions: each entry says which ones it rests on, and what no run is known to keep is not clean."""
    bench, script, canned = write(folder, "u.bench", GATES), write(folder, "u.txt", ASSUMING), write(folder, "canned", UNDER)
    told = os.path.join(folder, "told")
    fake = write(folder, "fake", f'#!/bin/sh\n[ "$1" = explore ] || exec "{hazard.path}" "$@"\ncat "$3" > "{told}"\ncat "{canned}"\n')
    os.chmod(fake, 0o755)
    scripts = lambda state, burst: f"  start {state}\n  order z(2) z(1)\n  ideal y(1)\n  change {burst}\n"
    status, text, _ = run(["table", "--hazard", fake, bench, script], folder)
    yield "a table under assumptions", (status, text), (0, 
        "state          a=1      a=0    b=1   b=0\n1 a=0 b=0 z=0  2[1]     (1)    3     (1)\n2 a=1 b=0 z=0  (2)      1![1]  more  (2)\n"
        "3 a=0 b=1 z=0  4![1,2]  (3)    (3)   -\n4 a=1 b=1 z=0  (4)      ?[2]   (4)   3![1,2]\n"
        + f"{table.LEGEND}\n{table.UNDER}\n  1 order z(2) z(1): in 4 changes\n  2 ideal y(1): in 3 changes\n\n"
        + f"state 2, a=0: 1 node static\n{scripts('a=1 b=0', 'a=0')}state 3, a=1: 1 node maybe-static\n{scripts('a=0 b=1', 'a=1')}state 4, a=0: z is unsettled\n{scripts('a=1 b=1', 'a=0')}"
        + f"state 4, b=0: {table.NOT_KEPT}\n{scripts('a=1 b=1', 'b=0')}\nthe first 4 states, of more; 7 changes: 3 clean, 3 with hazards, 1 unsettled\n")
    with open(told, encoding="utf-8") as file:
        yield "the assumptions reach `hazard`", file.read(), ASSUMING
    status, text, _ = run(["table", "--fail", "--hazard", fake, bench, script], folder)
    yield "a table under assumptions that fails", (status, text.replace(script, "S").splitlines()), (1, [
        "S:5: state 2 a=1 b=0 z=0, a=0: 1 node static, under order z(2) z(1)", "S:4: state 3 a=0 b=1 z=0, a=1: 1 node maybe-static, under order z(2) z(1), ideal y(1)",
        "S:5: state 4 a=1 b=1 z=0, a=0: z is unsettled, under ideal y(1)", f"S:7: state 4 a=1 b=1 z=0, b=0: {table.NOT_KEPT}, under order z(2) z(1), ideal y(1)",
        "S:4: not all states were found, so there may be more", "5 findings"])
    status, text, errors = run(["table", "--page", "--hazard", fake, bench, script], folder)
    found = json.loads(re.search(r"^const DATA = (.*);$", text, re.M)[1])["changes"] if status == 0 else errors
    yield "a page under assumptions", [(one["title"], one.get("under", []), one["script"].count("ideal y(1)")) for one in found[:3]], [
        ("1 to 2, a=1", ["under order z(2) z(1)"], 1), ("1 to 3, b=1", [], 1), ("2 to 1, a=0", ["under order z(2) z(1)"], 1)]
    strange = UNDER.replace("used 1 2 not shown", "used 1 2 shown")
    yield "strange words behind a change", _raised(strange), ValueError


def _really_under(folder, run, write, hazard):
    """The same by the program itself, if its explorations take assumptions."""
    bench, script = write(folder, "u.bench", GATES), write(folder, "v.txt", "start a=0 b=0\norder z(2) z(1)\nchange a=1\nchange b=1\n")
    try:
        hazard.explore(bench, script)
    except Failure as failure:
        print(f"skipped: flow tables under assumptions: {failure}")
        return
    yield "a table under an order", run(["table", "--fail", bench, script], folder)[:2], (0, "0 findings\n")
    yield "its entries", run(["table", bench, script], folder)[1].splitlines()[:7], [
        "state          a=1   b=1", "1 a=0 b=0 z=0  2[1]  3", "2 a=1 b=0 z=0  (2)   4", "3 a=0 b=1 z=0  4[1]  (3)", "4 a=1 b=1 z=0  (4)   (4)", table.LEGEND, table.UNDER]


def _raised(text):
    try:
        return list(exploration.read(text.splitlines()).rows)
    except ValueError as fault:
        return type(fault)


def _as_found(hazard, name, bench, script):
    """The text of `hazard explore`, against one call of `hazard edges` for each change."""
    lines = hazard.lines(["explore", bench, script])
    yield f"the states of {name}", [line for line in lines if line.split()[0] not in ("netlist", "feedback", "start")], explored(hazard, bench, script)


def _read():
    """What is read of a text."""
    found = exploration.read(CUT.splitlines())
    first, second, totals = found.rows
    yield "an exploration that was cut off", (found.start, first.transitions[0].is_clean(), second.transitions[0].target, second.transitions[0].hazards(), totals), (
        {"a": 0, "z": 1}, True, None, {"static": 1, "maybe-dynamic": 2}, exploration.Totals(False, 2, 2, 1, 1, 0))
    yield "walks", [[(one.target, is_new) for one, is_new in trail] for trail in graph.trails({1: first, 2: second})], [[(2, True), (None, True)]]
    step = lambda state, target, bit: exploration.Transition(state, {"a": bit}, target, {}, None)
    ring = {1: first._replace(transitions=[step(1, 2, 1), step(1, 2, 0)]), 2: second._replace(transitions=[step(2, 1, 0)])}
    yield "a walk that goes round", [[(one.state, is_new) for one, is_new in trail] for trail in graph.trails(ring)], [[(1, True), (2, True), (1, True)]]
    ring[2] = second._replace(transitions=[step(2, 3, 0)])
    ring[3] = second._replace(number=3, transitions=[step(3, 1, 0), step(3, 1, 1), step(3, 2, 1)])
    found = list(graph.trails(ring))
    yield "a walk that repeats", (len(found), sum(is_new for _, is_new in found[0])), (1, 6)
