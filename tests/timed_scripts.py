"""Scripts with assumptions of time, row by row: their faults, their starts, and reports that were worked by hand.

The part takes the program and a folder of its own, and yields a name, what was found, and what is wanted.
"""
import os
import re

from calls import call, write

EXAMPLES = os.path.join(os.path.dirname(os.path.dirname(os.path.abspath(__file__))), "examples")
TWO = "INPUT(a)\nINPUT(b)\ng = AND(a, b)\nh = OR(a, g)\n"
START = "start a=0 b=0\n"
LATCH = "INPUT(r)\nINPUT(s)\nq = NOR(r, qb)\nqb = NOR(s, q)\n"
XOR = "INPUT(x)\ny = XOR(x, x)\n"
BLOCKED = "INPUT(a)\ny = OR(a, z)\nz = BUFF(y)\n"
# two stages of a pipeline, each of a majority of gates
PIPELINE = ("INPUT(req)\nINPUT(ack)\nm1 = NOT(c2)\na1 = AND(req, m1)\nb1 = AND(req, c1)\nd1 = AND(m1, c1)\nc1 = OR(a1, b1, d1)\n"
            "m2 = NOT(ack)\na2 = AND(c1, m2)\nb2 = AND(c1, c2)\nd2 = AND(m2, c2)\nc2 = OR(a2, b2, d2)\n")
BRANCHES = "a1(1) b1(1) a1(2) d1(1) b1(2) d1(2) a2(1) b2(1) a2(2) d2(1) m1(1) b2(2) d2(2)".split()

# Each fault of a script on the gates above: the lines behind which it stands, and its line.
FAULTS = (
    ("order\n" + START, "1: form"),
    ("order g(1)\n" + START, "1: form"),
    ("order g(1) g(2) 1 1\n" + START, "1: form"),
    ("order g(1) g(2) h(1)\n" + START, "1: form"),
    ("order g(1) g(2) = 2\n" + START, "1: form"),
    ("order g(1)=g(2)\n" + START, "1: form"),
    ("order g(1), g(2)\n" + START, "1: form"),
    ("order g(01) g(2)\n" + START, "1: form"),
    ("order g(x) g(2)\n" + START, "1: form"),
    ("order g() g(2)\n" + START, "1: form"),
    ("order g(1 g(2)\n" + START, "1: form"),
    ("order (g(1) g(2))\n" + START, "1: form"),
    (START + "ideal\n", "2: form"),
    (START + "ideal g(1) g(2)\n", "2: form"),
    (START + "ideal g(1) 2\n", "2: form"),
    (START + "ideal g(1)=1\n", "2: form"),
    (START + "orders g(1) g(2)\n", "2: form"),
    (START + "assume g(1) g(2)\n", "2: form"),
    (START + "change a\n", "2: form"),
    ("order g(1) g(2) order h(1) h(2)\n" + START, "1: form"),
    ("order g(1) z(1)\n" + START, "1: unknown name"),
    ("order z(1) g(1)\n" + START, "1: unknown name"),
    ("order g(3) g(1)\n" + START, "1: unknown name"),
    ("order g(1) g(0)\n" + START, "1: unknown name"),
    ("order g(1) g(4294967297)\n" + START, "1: unknown name"),
    ("order g(1) g(99999999999999999999999999999999)\n" + START, "1: unknown name"),
    ("order g g(1)\n" + START, "1: unknown name"),
    ("order g(1) a\n" + START, "1: unknown name"),
    ("order g h\n" + START, "1: unknown name"),
    ("order G(1) g(2)\n" + START, "1: unknown name"),
    ("order a b\n" + START, "1: unknown name"),
    ("ideal g\n" + START, "1: unknown name"),
    ("ideal a\n" + START, "1: unknown name"),
    ("ideal a(1)\n" + START, "1: unknown name"),
    ("ideal g(3)\n" + START, "1: unknown name"),
    (START + "change g=1\n", "2: unknown name"),
    (START + START + "change z=1\n" + START, "3: unknown name"),
    (START + "start z=0\n", "2: unknown name"),
    (START + "start a=0 b=0 a=0\n", "2: assigned twice"),
    (START + "change a=0 a=1\n", "2: assigned twice"),
    (START + "change a=2\n", "2: bit"),
    (START + START + "start a=0 b=x\n", "3: bit"),
    ("order g(1) g(2)\n", "0: order"),
    ("ideal g(1)\nchange a=1\n", "2: order"),
    ("change a=1\n", "1: order"),
    ("", "0: order"),
    ("change a=1\n" + START, "1: order"),
    (START + "change a=1\norder g(1) g(2)\n", "3: order"),
    (START + "change\nideal g(1)\n", "3: order"),
    (START + "change a=1\n" + START + "order g(1) g(2)\n", "4: order"),
    ("order g(1) g(2)\nideal g(1)\nchange a=1\n" + START, "3: order"),
    ("order g(1) h(1)\n" + START, "1: not two wires of one gate"),
    ("order g(1) g(1)\n" + START, "1: not two wires of one gate"),
    (START + "order h(1) h(2)\norder h(2) g(2) 3\n", "3: not two wires of one gate"),
    ("order g(1) g(2) 0\n" + START, "1: number"),
    ("order g(1) g(2) 1001\n" + START, "1: number"),
    ("order g(1) g(2) 01\n" + START, "1: number"),
    ("order g(1) g(2) +1\n" + START, "1: number"),
    ("order g(1) g(2) a\n" + START, "1: number"),
    ("order g(1) g(2) 4294967297\n" + START, "1: number"),
    ("order g(1) g(2) 18446744073709551617\n" + START, "1: number"),
    ("order g(1) g(2) 340282366920938463463374607431768211457\n" + START, "1: number"),
    ("order g(1) g(2)\norder g(1) g(2)\n" + START, "2: stated twice"),
    ("order g(1) g(2)\n" + START + "ORDER g ( 1 ) g ( 2 ) 1 # again\n", "3: stated twice"),
    ("order g(1) g(2) 2\nideal g(1)\norder g(2) g(1) 2\norder g(1) g(2) 2\n" + START, "4: stated twice"),
    ("ideal g(1)\nideal h(1)\nideal g(1)\n" + START, "3: stated twice"),
)


def many(lines):
    return "".join(line + "\n" for line in lines)


NUMBERED = [f"order g(1) g(2) {nth}" for nth in range(1, 1001)]
WIDE = "INPUT(a)\nINPUT(b)\nw = AND(" + ", ".join("ab" * 128) + ")\ng = AND(a, b)\n"
IDEAL = [f"ideal w({pin})" for pin in range(1, 257)]
# The limits, on a netlist with more wires: as many of each as there may be, and one more.
LIMITS = (
    ("1,000 orders", many(NUMBERED) + START, None),
    ("1,001 orders", many(NUMBERED) + START + "order g(2) g(1)\n", "1002: too many"),
    ("256 ideal wires", START + many(IDEAL), None),
    ("257 ideal wires", START + many(IDEAL) + "ideal g(1)\n", "258: too many"),
    ("256 starts", START * 256, None),
    ("257 starts", START * 257, "257: too many"),
    ("10,000 changes of 250 starts", (START + "change a=1\n" * 40) * 250, None),
    ("10,001 changes of 250 starts", (START + "change a=1\n" * 40) * 249 + START + "change\n" * 41, "10251: too many"),
    ("two limits", START + many(IDEAL) + "ideal g(1)\n" + many(NUMBERED) + "order g(2) g(1)\n", "258: too many"),
    ("the other way round", START + many(NUMBERED) + "order g(2) g(1)\n" + many(IDEAL) + "ideal g(1)\n", "1002: too many"),
    ("starts and changes", START * 2 + "change\n" * 10_001 + START * 255, "10003: too many"),
)
# Every kind of fault, in the order in which one is told before another: lines that stand before all changes, or behind one, and which of
# these is its line.
KINDS = (
    ("form", [], ["start a"], 0),
    ("unknown name", [], ["change z=1"], 0),
    ("assigned twice", [], ["start a=0 b=0 a=0"], 0),
    ("no value", [], ["start b=0"], None),
    ("bit", [], ["change a=2"], 0),
    ("order", [], ["ideal h(1)"], 0),
    ("too many", [], ["start a=0 b=0"] * 256, 255),
    ("not two wires of one gate", ["order g(1) h(1)"], [], 0),
    ("number", ["order g(1) g(2) 0"], [], 0),
    ("stated twice", ["ideal h(2)", "ideal h(2)"], [], 1),
)


def two_faults():
    """Scripts with two faults, of which the second kind stands first: both kinds, the script, and what is told."""
    for place, (kind, before, behind, line) in enumerate(KINDS):
        for other, other_before, other_behind, _ in KINDS[place + 1:]:
            front = other_before + ["start a=0 b=0", "change a=1"] + other_behind
            lines = other_before + before + front[len(other_before):] + behind
            first = len(other_before) if before else len(lines) - len(behind)
            told = "script: no value for a" if line is None else f"script line {first + line + 1}: {kind}"
            yield f"{kind}, not {other}", many(lines), told


def marks(text):
    """The lines of a report that begin something or are of orders."""
    return re.findall(r"^(?:start|change|stopped|used|kept|orders|refused)\b.*", re.sub(r"(?s)\nruns 2\n.*?\nend\n", "\n", text + "\n"), re.M)


def rows_of(text):
    """The names and the ends of the rows of a report."""
    return re.findall(r"^(\S+) start [01] (end [01X] edges .*)$", text, re.M)


def edges(program, folder, netlist, script):
    """The status and the text of the job `edges`."""
    form = "t.blif" if netlist.startswith(".") else "t.bench"
    done = call(program, ["edges", write(folder, form, netlist), write(folder, "t.txt", script)], folder)
    return done.returncode, done.stdout.decode()


def fault_rows(program, folder):
    """What is refused of a script, and by which line."""
    for script, told in FAULTS:
        yield f"{script!r}", edges(program, folder, TWO, script), (4, f"refused: script line {told}\n")
    for name, script, told in LIMITS:
        status, text = edges(program, folder, WIDE, script)
        yield name, (status, text if told else ""), (4, f"refused: script line {told}\n") if told else (0, "")
    for name, script, told in two_faults():
        yield name, edges(program, folder, TWO, script), (4, f"refused: {told}\n")
    for script, told in (("start a=0\nstart b=0\n", "a"), ("start a=0 b=0\nstart a=0\nstart b=0\n", "a"), ("start a=0 b=0\nchange a=1\nstart a=1 g=0\n", "b")):
        yield f"no value: {script!r}", edges(program, folder, TWO, script), (4, f"refused: script: no value for {told}\n")


# Starts of the latch: those that are refused, and the changes of those that are not.
STARTS = (
    ("the first of two", "start r=0 s=0\nstart r=0 s=1 q=0\n", 5, ["refused: start: open q"]),
    ("the second of three, open", "start r=1 s=0\nchange r=0\nstart r=0 s=0\nstart r=0 s=1 q=0\n", 5, ["refused: start: open q"]),
    ("the second of three, unstable", "start r=1 s=0\nstart r=0 s=1 qb=1\nstart r=0 s=0\n", 5, ["refused: start: unstable qb"]),
    ("a fault in the third", "start r=1 s=0\nstart r=0 s=0\nstart r=0 s=0 r=0\n", 4, ["refused: script line 3: assigned twice"]),
    ("two starts in a row", "start r=1 s=0\nstart r=0 s=1\nchange r=1\nstart r=1 s=0\n", 0,
     ["start r=1 s=0 q=0 qb=1", "start r=0 s=1 q=1 qb=0", "change 1 r=1", "start r=1 s=0 q=0 qb=1"]),
    ("a start ends what stopped", "ideal q(2)\nstart r=1 s=1\nchange r=0 s=0\nchange r=1\nchange\nstart r=1 s=0\nchange r=0\nchange s=1\n", 0,
     ["start r=1 s=1 q=0 qb=0", "change 1 r=0 s=0", "orders used 0 idle 0", "change 2 r=1", "stopped q", "change 3", "stopped q",
      "start r=1 s=0 q=0 qb=1", "change 4 r=0", "orders used 0 idle 0", "change 5 s=1", "orders used 0 idle 0"]),
)


def start_rows(program, folder):
    """Several starts: which is refused, how changes are numbered, and what a start ends."""
    for name, script, status, told in STARTS:
        found, text = edges(program, folder, LATCH, script)
        yield name, (found, marks(text)), (status, told)
    one = edges(program, folder, LATCH, "start r=1 s=0\nchange r=0\n")[1]
    other = edges(program, folder, LATCH, "start r=0 s=1\nchange s=0\n")[1]
    both = edges(program, folder, LATCH, "start r=1 s=0\nchange r=0\nstart r=0 s=1\nchange s=0\n")[1]
    yield "two starts, each with a change", both, one + other[other.index("start "):].replace("change 1", "change 2")


def run_text(net, start, new, steps):
    return f"runs 2\nnet {net}\nstart {start}\ninput {new}\nrun\n" + "".join(f"step {step}\n" for step in steps) + "end\n"


STEADY = "end 0 edges 0 steady"
JOINT = run_text("1 1 2", "x=0 y=0", "x=1", ["x", "y(1) y(2)"])
PULSE = run_text("1 1 2", "x=0 y=0", "x=1", ["x", "y(1)", "y", "y(2)", "y"])
# Whole reports behind the line of the netlist, by hand: a name, the netlist, the script, and the report.
REPORTS = (
    ("orders both ways", XOR, "order y(1) y(2)\nstart x=0\norder y(2) y(1) 1\nchange x=1\n",
     "start x=0 y=0\nchange 1 x=1\nused y(1) y(2) 1\nused y(2) y(1) 1\n"
     "x start 0 end 1 edges 1 single\ny start 0 end 0 edges 0 steady\nkept yes\norders used 2 idle 0\n" + JOINT),
    ("an order of one way", XOR, "order y(1) y(2)\nstart x=0\nchange x=1\n",
     "start x=0 y=0\nchange 1 x=1\nused y(1) y(2) 1\n"
     "x start 0 end 1 edges 1 single\ny start 0 end 0 edges 2 static\nkept yes\norders used 1 idle 0\n" + PULSE),
    ("a second change that is never made", XOR, "order y(1) y(2) 2\nstart x=0\nchange x=1\n",
     "start x=0 y=0\nchange 1 x=1\nused y(1) y(2) 2\n"
     "x start 0 end 1 edges 1 single\ny start 0 end 0 edges 2 static\nkept yes\norders used 1 idle 0\n" + PULSE),
    ("an idle order", "INPUT(a)\nINPUT(b)\ng = AND(a, b)\n", "order g(2) g(1)\nstart a=0 b=1\nchange a=1\n",
     "start a=0 b=1 g=0\nchange 1 a=1\na start 0 end 1 edges 1 single\nb start 1 end 1 edges 0 steady\ng start 0 end 1 edges 1 single\n"
     "orders used 0 idle 1\n" + run_text("2 1 2", "a=0 b=1 g=0", "a=1 b=1", ["a", "g(1)", "g"])),
    ("an order that no run keeps", BLOCKED, "order y(2) y(1)\nstart a=0 y=0\nchange a=1\nchange a=0\nstart a=0 y=0\nchange a=0\n",
     "feedback y z(1) z y(2)\nstart a=0 y=0 z=0\nchange 1 a=1\nused y(2) y(1) 1\n"
     "a start 0 end 1 edges 0..1 single\ny start 0 end 0 edges 0 steady\nz start 0 end 0 edges 0 steady\nkept not shown\norders used 1 idle 0\n"
     "change 2 a=0\nstopped y\nstart a=0 y=0 z=0\nchange 3 a=0\n"
     "a start 0 end 0 edges 0 steady\ny start 0 end 0 edges 0 steady\nz start 0 end 0 edges 0 steady\norders used 0 idle 1\n"
     + run_text("1 2 3", "a=0 y=0 z=0", "a=0", [])),
    # g(2) never moves under the first order, so no walk of g's wires goes all the way; on a part of one g changes with c
    ("a part of a walk", "INPUT(a)\nINPUT(c)\ny = OR(a, z)\nz = BUFF(y)\nq = BUFF(z)\ng = XOR(a, q, c)\n", "order y(2) y(1)\norder g(2) g(1)\nstart a=0 c=0 y=0\nchange a=1 c=1\n",
     "feedback y z(1) z y(2)\nstart a=0 c=0 y=0 z=0 q=0 g=0\nchange 1 a=1 c=1\nused y(2) y(1) 1\nused g(2) g(1) 1\n"
     "a start 0 end 1 edges 0..1 single\nc start 0 end 1 edges 0..1 single\ny start 0 end 0 edges 0 steady\nz start 0 end 0 edges 0 steady\n"
     "q start 0 end 0 edges 0 steady\ng start 0 end 0 edges 0..1 maybe-static\nkept not shown\norders used 2 idle 0\n"),
    ("other spellings", "INPUT(order)\nideal = XOR(order, order)\n", "# r\r\nOrder ideal (1) ideal ( 2 )\r\n\nSTART order=0\r\nIDEAL ideal(2) # i\nOrDeR ideal(2) ideal(1) 1000\nchange order = 1",
     "start order=0 ideal=0\nchange 1 order=1\nused ideal(1) ideal(2) 1\nused ideal(2) ideal(1) 1\nused ideal(2) ideal(1) 1000\n"
     "order start 0 end 1 edges 1 single\nideal start 0 end 0 edges 0 steady\nkept yes\norders used 3 idle 0\n"
     + JOINT.replace("x", "order").replace("y", "ideal")),
)


def report_rows(program, folder):
    """Reports by hand, and the circuits that orders and ideal wires cure."""
    for name, netlist, script, told in REPORTS:
        status, text = edges(program, folder, netlist, script)
        yield name, (status, text.partition("\n")[2]), (0, told)
    script = "order y(2) y(1)\nstart a=0 b=0\nchange a=1 b=1\n"
    yield "a netlist in BLIF", edges(program, folder, ".inputs a b\n.names a b y\n11 1\n", script), edges(program, folder, "INPUT(a)\nINPUT(b)\ny = AND(a, b)\n", script)
    with open(os.path.join(EXAMPLES, "flipflop.txt"), encoding="utf-8") as file:
        script = file.read()
    with open(os.path.join(EXAMPLES, "flipflop.bench"), encoding="utf-8") as file:
        netlist = file.read()
    for orders, hazards in (("", {"r", "q", "qb"}), ("order r(2) r(1)\n", set())):
        change = edges(program, folder, netlist, orders + script)[1].split("change 5")[1]
        yield f"hazards of the flip-flop with {orders!r}", hazards_in(change), hazards
    full = "start req=1 ack=0 c1=1 c2=1\nchange ack=1\nchange req=0\n"
    changes = edges(program, folder, PIPELINE, full)[1].split("change ")[1:]
    yield "hazards of the pipeline", [len(hazards_in(change)) for change in changes], [0, 7]
    text = edges(program, folder, PIPELINE, many(f"ideal {wire}" for wire in BRANCHES) + full)[1]
    yield "hazards of the pipeline whose branches are ideal", [hazards_in(change) for change in text.split("change ")[1:]], [set(), set()]
    yield "its runs", re.findall("^kept .*", text, re.M), ["kept yes"]


def hazards_in(text):
    """The nodes with a hazard in the lines of a change."""
    return {name for name, told in rows_of(text) if told.split()[-1] not in ("steady", "single")}


def other_jobs(program, folder):
    """The jobs that know no assumption refuse them, and a second start."""
    for job in ("analyse", "split"):
        for script, line in (("order g(1) g(2)\n" + START, "1: form"), (START + "ideal g(1)\n", "2: form"), (START + START, "2: order"), (START + "change a=1\n" + START, "3: order")):
            done = call(program, [job, write(folder, "j.bench", TWO), write(folder, "j.txt", script)], folder)
            yield f"{job} {script!r}", (done.returncode, done.stdout.decode()), (4, f"refused: script line {line}\n")


# Scripts whose start may not stand again, on the gates above, and what is refused of them.
ONE_START = (
    (START + START, "line 2: order"),
    (START + "change a=1\n" + START, "line 3: order"),
    ("change a=1\n" + START, "line 1: order"),
    (START + "change a=1\norder g(1) g(2)\n", "line 3: order"),
    (START + "start a=0\n", "line 2: order"),
    ("start a=0\n" + START, "no value for b"),
    ("order g(1) h(1)\n" + START + START, "line 3: order"),
    ("order g(1) g(2) 0\n" + START, "line 1: number"),
    ("ideal g(1)\n" + START + "ideal g(1)\n", "line 3: stated twice"),
    ("ideal g(1)\n", "line 0: order"),
)
# Explorations by hand, behind the line of the netlist: a name, the netlist, the script, and the report.
EXPLORED = (
    ("orders both ways", XOR, "order y(1) y(2)\nstart x=0\norder y(2) y(1)\n",
     "start x=0 y=0\nstate 1 x=0 y=0\n1 to 2 x=1 single 1 static 0 dynamic 0 maybe-dynamic 0 maybe-static 0 used 1 2\n"
     "state 2 x=1 y=0\n2 to 1 x=0 single 1 static 0 dynamic 0 maybe-dynamic 0 maybe-static 0 used 1 2\n"
     "all states 2 changes 2 clean 2 hazards 0 unsettled 0\n"),
    ("an order of one way, behind a wire that stands still", XOR + "INPUT(c)\nv = AND(c, y)\n", "ideal v(1)\nstart x=0 c=0\norder y(1) y(2)\nchange x=1\n",
     "start x=0 c=0 y=0 v=0\nstate 1 x=0 c=0 y=0 v=0\n1 to 2 x=1 single 1 static 1 dynamic 0 maybe-dynamic 0 maybe-static 0 used 2\n"
     "state 2 x=1 c=0 y=0 v=0\nall states 2 changes 1 clean 0 hazards 1 unsettled 0\n"),
    ("an idle order", "INPUT(a)\nINPUT(b)\ng = AND(a, b)\n", "order g(2) g(1)\nstart a=0 b=1\nchange a=1\n",
     "start a=0 b=1 g=0\nstate 1 a=0 b=1 g=0\n1 to 2 a=1 single 2 static 0 dynamic 0 maybe-dynamic 0 maybe-static 0\n"
     "state 2 a=1 b=1 g=1\nall states 2 changes 1 clean 1 hazards 0 unsettled 0\n"),
    ("an order that no run keeps", BLOCKED, "order y(2) y(1)\nstart a=0 y=0\nchange a=1\nchange a=0\n",
     "feedback y z(1) z y(2)\nstart a=0 y=0 z=0\nstate 1 a=0 y=0 z=0\n1 unsettled a=1 y used 1 not shown\n"
     "all states 1 changes 1 clean 0 hazards 0 unsettled 1\n"),
)


def explored_rows(program, folder):
    """The job `explore`: its starts, and explorations by hand."""
    def explore(netlist, script):
        done = call(program, ["explore", write(folder, "x.bench", netlist), write(folder, "x.txt", script)], folder)
        return done.returncode, done.stdout.decode()
    for script, told in ONE_START:
        yield f"explore {script!r}", explore(TWO, script), (4, f"refused: script{':' if told.startswith('no') else ''} {told}\n")
    for name, netlist, script, told in EXPLORED:
        status, text = explore(netlist, script)
        yield f"exploration, {name}", (status, text.partition("\n")[2]), (0, told)
    with open(os.path.join(EXAMPLES, "flipflop.txt"), encoding="utf-8") as file:
        start = next(line for line in file if line.startswith("start"))
    with open(os.path.join(EXAMPLES, "flipflop.bench"), encoding="utf-8") as file:
        netlist = file.read()
    yield "exploration of the flip-flop under an order", explore(netlist, "order r(2) r(1)\n" + start)[1].splitlines()[-1:], ["all states 12 changes 36 clean 35 hazards 0 unsettled 1"]


def timed_scripts(program, folder):
    """Scripts with assumptions of time: faults, starts, and reports by hand."""
    yield from fault_rows(program, folder)
    yield from start_rows(program, folder)
    yield from report_rows(program, folder)
    yield from other_jobs(program, folder)
    yield from explored_rows(program, folder)


PARTS = (timed_scripts,)
