"""A designer's fourteen circuits, each with the questions that were asked of it and the answers that were wanted, or with why there is none."""
import json
import re

LATCH = "INPUT(d)\nINPUT(e)\nn = NOT(d)\ns = NAND(d, e)\nr = NAND(n, e)\nq = NAND(s, qb)\nqb = NAND(r, q)\n"
NO_INVERTER = "INPUT(d)\nINPUT(e)\ns = NAND(d, e)\nr = NAND(s, e)\nq = NAND(s, qb)\nqb = NAND(r, q)\n"
MUTEX = "INPUT(r1)\nINPUT(r2)\nf1 = NAND(r1, f2)\nf2 = NAND(r2, f1)\nn1 = NOT(f1)\nn2 = NOT(f2)\ng1 = AND(n1, f2)\ng2 = AND(n2, f1)\n"
ELEMENT = "INPUT(a)\nINPUT(b)\nab = NAND(a, b)\nac = NAND(a, c)\nbc = NAND(b, c)\nc = NAND(ab, ac, bc)\n"
PIPELINE = ("INPUT(req)\nINPUT(ack)\nn1 = NOT(c2)\na1 = AND(req, n1)\nb1 = AND(req, c1)\nd1 = AND(n1, c1)\nc1 = OR(a1, b1, d1)\nn2 = NOT(ack)\n"
            "a2 = AND(c1, n2)\nb2 = AND(c1, c2)\nd2 = AND(n2, c2)\nc2 = OR(a2, b2, d2)\n")
SELECT = "INPUT(ca)\nINPUT(cb)\nINPUT(s)\nOUTPUT(co)\nns = NOT(s)\nda = AND(ns, nb)\ndb = AND(s, na)\nna = NOT(a2)\nnb = NOT(b2)\na2 = DFF(da)  # clock ca {edge}\nb2 = DFF(db)  # clock cb {edge}\nga = AND(ca, a2)\ngb = AND(cb, b2)\nco = OR(ga, gb)\n"
HUFFMAN = "INPUT(a)\nINPUT(b)\nboth = AND(a, b)\nhold = AND(b, y)\ny = OR(both, hold)\nna = NOT(a)\nz = AND(na, b, y)\n"
SLOW = HUFFMAN.replace("y = OR(both, hold)", "yn = OR(both, hold)\ny = DFF(yn)")
CATCHER = "INPUT(a)\nINPUT(clear)\nb = NOT(a)\nc = NOT(b)\nd = NOT(c)\np = AND(a, d)\nq = NOR(clear, m)\nm = NOR(p, q)\n"
RING = "INPUT(ck)\nOUTPUT(g0)\nOUTPUT(g1)\nOUTPUT(g2)\nt0 = DFF(t2)  # clock ck rising\nt1 = DFF(t0)  # clock ck rising\nt2 = DFF(t1)  # clock ck rising\ng0 = AND(t0, ck)\ng1 = AND(t1, ck)\ng2 = AND(t2, ck)\n"
GRAY = "INPUT(ck)\nOUTPUT(empty)\nx0 = XOR(w0, r0)\nx1 = XOR(w1, r1)\nempty = NOR(x0, x1)\nd0 = NOT(w1)\nd1 = BUFF(w0)\ne0 = BUFF(r0)\ne1 = BUFF(r1)\nw0 = DFF(d0)\nw1 = DFF(d1)\nr0 = DFF(e0)\nr1 = DFF(e1)\n"
RESET = "INPUT(rst)\nINPUT(one)\nOUTPUT(out)\nn = NOT(rst)\nd1 = AND(one, n)\nd2 = AND(f1, n)\nf1 = DFF(d1)\nf2 = DFF(d2)\nout = AND(f2, n)\n"
SCAN = ("INPUT(d)\nINPUT(si)\nINPUT(se)\nINPUT(ck)\nnse = NOT(se)\nm1 = AND(d, nse)\nm2 = AND(si, se)\nx = OR(m1, m2)\nnck = NOT(ck)\nsm = NAND(x, nck)\nnx = NOT(x)\nrm = NAND(nx, nck)\n"
        "m = NAND(sm, mb)\nmb = NAND(rm, m)\nss = NAND(m, ck)\nrs = NAND(mb, ck)\nq = NAND(ss, qb)\nqb = NAND(rs, q)\n")
FILTER = "INPUT(r1)\nINPUT(r2)\nINPUT(g1)\nINPUT(g2)\nOUTPUT(both)\nboth = AND(g1, g2)\nwait1 = NOT(g1)\nbusy = OR(r1, r2)\n"
# a latch written as behaviour, as yosys writes it
BEHAVIOUR = {"modules": {"top": {"ports": {"d": {"direction": "input", "bits": [2]}, "e": {"direction": "input", "bits": [3]}, "q": {"direction": "output", "bits": [4]}},
             "cells": {"u": {"type": "$_DLATCH_P_", "connections": {"D": [2], "E": [3], "Q": [4]}}}, "netnames": {name: {"bits": [bit]} for name, bit in zip("deq", (2, 3, 4))}}}}
CLEARED = re.sub(r"(.. = DFF.*)", r"\1  # clock ck rising, reset rst=1 to 0", GRAY).replace("INPUT(ck)", "INPUT(ck)\nINPUT(rst)")

# Of each circuit its questions: job, netlist, script, node or options, status, parts that the answer has, parts that it has not.
# What can't be asked: whether a reset is released before or after an edge of the clock, since a flip-flop has no set-up time here; and a
# metastability filter, which is an analogue circuit.
CIRCUITS = {
    "a D latch, as behaviour": (
        ("it keeps its bit, and loses it if its data falls with its enable", "expect", BEHAVIOUR, "start d=1 e=1 q=1 #expect q clean\nchange e=0 #expect q steady\nchange e=1 #expect q steady\nchange d=0 #expect q single\nchange d=1\nchange d=0 e=0 #expect q unsettled\n", [], 0, ("5 expectations, 0 failed",), ()),
        ("the cover that its own gates would not have is named", "netlist", BEHAVIOUR, "", [], 0, ("as the gates of a latch with a cover", "q.cover = AND(d, q)"), ()),
    ),
    "a D latch of four NANDs": (
        ("a latch loses its bit if its data falls with its enable", "summary", LATCH, "start d=1 e=1\nchange e=0\nchange e=1\nchange d=0 e=0\n", [], 0, ("1 e=0: clean", "q unsettled"), ()),
        ("a latch of four gates: which wire", "why", NO_INVERTER, "start d=1 e=1\nchange e=0\n", ["r"], 0, ("r pulses if wire r(2) is slower than s(2), s, r(1), r: 1 wire against 2 gates and 2 wires",), ()),
        ("the order that its layout has to keep", "why", NO_INVERTER, "start d=1 e=1\nchange e=0\n", ["q"], 0, ("order r(2) r(1) alone makes q clean (it keeps 1): wire r(2) no later than s(2), s, r(1): 1 wire against 1 gate and 2 wires",), ()),
        ("with an inverter it keeps its bit", "summary", LATCH, "start d=1 e=1\nchange e=0\n", [], 0, ("1 e=0: clean",), ()),
    ),
    "a mutex": (
        ("two grants at once", "expect", MUTEX, "start r1=0 r2=0\nchange r1=1 r2=1 #expect never g1=1 g2=1\n", [], 1, ("shown by the steps",), ()),
        ("what decides a race", "why", MUTEX, "start r1=0 r2=0\nchange r1=1 r2=1\n", ["f1"], 0, ("f1 ends at 0 if r2, f2(1) are slower than r1, f1(1), f1, f2(2)", "f1 ends at 1 if r1, f1(1) are slower than"), ()),
        ("what comes after each outcome of a race", "expect", MUTEX, "start r1=0 r2=0\nchange r1=1 r2=1 #expect f1 unsettled\nstart r1=1 r2=1 f1=0 f2=1 #expect never g1=1 g2=1\nchange r2=0 #expect g1 steady\nchange r1=0 #expect g1 single\n", [], 0, ("5 expectations, 0 failed",), ()),
    ),
    "a C element": (
        ("a C element has single edges", "expect", ELEMENT, "start a=0 b=0 c=0 #expect c clean, settled\nchange a=1 #expect c steady\nchange b=1 #expect c single\n", [], 0, ("4 expectations, 0 failed",), ()),
        ("an illegal burst", "expect", ELEMENT, "start a=0 b=1 c=0\nchange a=1 b=0 #expect c clean\n", [], 1, ("c clean: its class is",), ()),
    ),
    "a micropipeline": (
        ("a pipeline is not for this analysis, and what each node needs is told", "why", PIPELINE, "start req=0 ack=0 c1=0 c2=0\nchange req=1\n", ["c1"], 0, ("c1 in change 1 req=1: unsettled", "c1 ends at 1 if"), ()),
        ("hazard-free if its forks are no slower: it is", "expect", PIPELINE, "start req=0 ack=1 c1=0 c2=0 #expect c1 clean, c2 clean, settled\nideal a1(1)\nideal d1(2)\nchange req=1\nchange ack=0\nchange ack=1\nchange req=0\n", [], 0, ("12 expectations, 0 failed",), ()),
        ("which forks these are", "why", PIPELINE, "start req=0 ack=1 c1=0 c2=0\nchange req=1\nchange ack=0\nchange ack=1\nchange req=0\n", ["c1", "4"], 0, ("together these make c1 clean (it goes to 0), and none of them can go:", "  order a1(1) a1(2): ", "  ideal d1(2): "), ()),
    ),
    "a clock multiplexer": (
        ("a clock multiplexer cuts a pulse", "summary --fail --outputs", SELECT.replace("{edge}", "rising"), "start ca=0 cb=0 s=0 a2=1 b2=0\n#clock ca\nchange ca=0\nchange s=1\n#clock ca\n", [], 1, ("co pulses across the edge",), ()),
        ("a clock multiplexer with the falling edge does not", "summary --fail --outputs", SELECT.replace("{edge}", "falling"), "start ca=0 cb=0 s=0 a2=1 b2=0\nchange ca=1\n#clock ca=0\nchange s=1\nchange ca=1\n#clock ca=0\nchange cb=1\n#clock cb=0\n", [], 0, ("0 findings",), ()),
    ),
    "a burst-mode machine": (
        ("an essential hazard by its name", "why", HUFFMAN, "start a=0 b=0 y=0\nchange a=1 b=1\n", ["z"], 0, ("an essential hazard", "y(1), y, z(3), z"), ()),
        ("its feedback is padded: that can be said, and is enough", "expect", HUFFMAN, "start a=0 b=0 y=0\norder z(1) z(3)\nchange a=1 b=1 #expect z clean\n", [], 0, ("1 expectation, 0 failed",), ()),
        ("what padding has to do", "why", HUFFMAN, "start a=0 b=0 y=0\nchange a=1 b=1\n", ["z"], 0, ("order z(1) z(3) alone makes z clean: na(1), na, z(1) no later than both(1), both, y(1), y, z(3)",), ()),
    ),
    "the same with its feedback as a flip-flop": (
        ("slow feedback as a cut", "expect", SLOW, "start a=0 b=0 y=0 #expect z clean\nchange a=1 b=1\n#clock #expect yn steady\nchange a=0\n", [], 0, ("0 failed",), ()),
    ),
    "a metastability filter": (
        ("the filter behind a mutex is cut out", "expect", FILTER, "start r1=0 r2=0 g1=0 g2=0 #expect both steady\nchange r1=1 r2=1\nchange g1=1\nchange r1=0\nchange g1=0\nchange g2=1\n", [], 0, ("5 expectations, 0 failed",), ()),
    ),
    "a pulse catcher": (
        ("a pulse of its own is caught or not", "why", CATCHER, "start a=0 clear=0 q=1\nchange a=1\n", ["p"], 0, ("p pulses if b(1), b, c(1), c, d(1), d, p(2) are slower than p(1), p",), ()),
        ("the caught bit", "summary", CATCHER, "start a=0 clear=0 q=0\nchange a=1\n", [], 0, ("p static-0", "m unsettled"), ()),
    ),
    "a one-hot ring": (
        ("each pulse of a ring is cut in two", "summary --outputs", RING, "start ck=0 t0=1 t1=0 t2=0\n#clock ck\n", [], 0, ("pulses across the edge: g0", "1 ck=1: clean"), ()),
        ("two grants of a ring overlap", "expect", RING, "start ck=0 t0=1 t1=0 t2=0\n#clock ck #expect never g0=1 g1=1\n", [], 1, ("shown by the steps",), ()),
    ),
    "flags of a FIFO": (
        ("a flag of a FIFO with Gray code", "expect", GRAY, "start ck=0 w0=0 w1=0 r0=0 r1=0 #expect empty clean\n#clock\n#clock\n#clock\n", [], 0, ("0 failed",), ()),
        ("a reset makes a flag move more than once", "clock summary", CLEARED, "start ck=0 rst=0 w0=1 w1=1 r0=1 r1=0\nchange rst=1\n", [], 0, ("empty dynamic 0-1: it goes from 0 to 1, by 3 edges in some run",), ()),
        ("what is expected of a reset is expected of its flip-flops too", "clock expect", CLEARED, "start ck=0 rst=0 w0=1 w1=1 r0=1 r1=0\nchange rst=1 #expect empty clean\n", [], 1, ("empty clean: its class is dynamic 0-1", "2 expectations, 1 failed"), ()),
    ),
    "a reset synchroniser": (
        ("a reset falls at once and rises clean", "expect", RESET, "start rst=0 one=1 f1=1 f2=1 #expect out clean\nchange rst=1 #expect out single\nchange f1=0 f2=0\nchange rst=0 #expect out steady\n#clock\n#clock #expect out single\n", [], 0, ("0 failed",), ()),
    ),
    "a scan flip-flop": (
        ("a scan flip-flop may lose its bit", "summary", SCAN, "start d=0 si=0 se=0 ck=1 m=1 q=1\nchange ck=0\n", [], 0, ("q unsettled", "rs static-1"), ()),
        ("a scan flip-flop: the second latch's clock wire", "why", SCAN, "start d=0 si=0 se=0 ck=1 m=1 q=1\nchange ck=0\n", ["rs"], 0, ("rs pulses if wire rs(2) is slower than nck(1)", "an essential hazard"), ()),
        ("which order keeps its bit", "why", SCAN, "start d=0 si=0 se=0 ck=1 m=1 q=1\nchange ck=0\n", ["q"], 0, ("order rs(2) rs(1) alone makes q clean",), ()),
    ),
}


def rows(folder, run, write):
    """Rows of name, found, wanted."""
    yield "fourteen circuits", len(CIRCUITS), 14
    for circuit, questions in CIRCUITS.items():
        for question, words, netlist, script, more, status, parts, absent in questions:
            found, text = _answer(folder, run, write, words.split(), netlist, script, more)
            yield f"{circuit}: {question}", (found, [part for part in parts if part not in text], [part for part in absent if part in text]), (status, [], [])


def _answer(folder, run, write, words, netlist, script, more):
    """The status and what is written of a question."""
    if isinstance(netlist, dict):
        netlist = run(["from-yosys", write(folder, "w.json", json.dumps(netlist))], folder)[1]
    bench, path = write(folder, "w.bench", netlist), write(folder, "w.txt", script)
    if "#clock" in script or words[0] == "clock":
        path = write(folder, "w.out", run(["clock", bench, path], folder)[1])
    job, *options = [word for word in words if word != "clock"]
    if job == "netlist":
        return 0, netlist
    found, text, errors = run([job] + options + [bench, path] + more, folder)
    return found, text + errors
