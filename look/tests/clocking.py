"""Scripts with edges written out, and edges that can't be."""


def rows(folder, run, write):
    """Rows of name, found, wanted."""
    bench = write(folder, "c.bench", "INPUT(ck)\nINPUT(d)\nINPUT(r)\ngck = AND(ck, d)\nn = NOT(ck)\na = DFF(d)\n"
                  "b = DFF(x)  # clock ck falling\nx = XOR(a, d)\nc = DFF(a)  # clock gck rising\n"
                  "e = DFF(x)  # clock ck rising, reset r=1 to 0\ny = AND(b, c, e, r)\n")
    start = "start ck=0 d=1 r=0 a=0 b=0 c=0 e=1\n"
    edge, down, on = "  #edge ck=1\n", "  #edge ck=0\n", "  #edge goes on"
    cases = [
        ("#clock ck", f"change ck=1{edge}change a=1 c=0 e=1{on}\n"),
        ("#clock ck=1 #expect settled # kept", f"change ck=1  #edge ck=1  #expect settled\nchange a=1 c=0 e=1{on}  #expect settled  # kept\n"),
        ("change ck=1\n#clock ck=0", f"change ck=1\nchange ck=0{down}change a=1 b=1{on}\n"),
        ("change d=0\n#clock ck", f"change d=0\nchange ck=1{edge}change a=0 e=0{on}\n"),
        ("change ck=1\n#clock ck", f"change ck=1\nchange ck=0\nchange ck=1{edge}change a=1 c=0 e=1{on}\n"),
        ("change r=1  # held\n# no edge", "change r=1  #edge r=1  # held\nchange e=0  #edge goes on  # reset\n# no edge\n"),
        ("change r=1 d=0#expect y clean #expect edge: y clean, e single", "change r=1 d=0  #edge r=1 d=0  #expect y clean\nchange e=0  #edge goes on  #expect y clean  #expect edge: y clean, e single  # reset\n"),
        ("#clock", "change a=1 b=1 c=0 e=1\n"),
    ]
    for text, wanted in cases:
        yield f"clock {text!r}", run(["clock", bench, write(folder, "c.txt", start + text + "\n")], folder), (0, start + wanted, "")
    unread = write(folder, "u.bench", "INPUT(ck)\nINPUT(d)\nINPUT(e)\nq = DFF(d)  # clock ck rising\ny = NOT(q)\n")
    yield "inputs that nothing reads", run(["clock", unread, write(folder, "u.txt", "start ck=0 d=1 e=0 q=0\n#clock ck")], folder), (
        0, f"start ck=0 d=1 e=0 q=0\nchange ck=1{edge}change q=1{on}\n",
        "hazard-look: no gate reads ck: its edges act by the flip-flops alone\n"
        "hazard-look: no gate reads e: a change of it changes nothing else\n")
    pulses = write(folder, "p.bench", "INPUT(ck)\nINPUT(s)\nn = NOT(s)\nh = AND(n, s)\na = DFF(b)  # clock ck rising, reset h=1 to 0\n"
                   "b = DFF(a)  # clock h rising\nc = DFF(a)  # clock h falling\ny = AND(a, b, c, ck)\n")
    told = ("the clock h may pulse, and the script has no edge for it: flip-flop b and 1 more", "the reset h may pulse, and the script resets nothing: flip-flop a")
    yield "a clock and a reset that pulse", run(["clock", pulses, write(folder, "p.txt", "start ck=0 s=0 a=1 b=1 c=1\nchange s=1\nchange s=0\n")], folder), (
        0, "start ck=0 s=0 a=1 b=1 c=1\nchange s=1\nchange s=0\n", "".join(f"hazard-look: {folder}/p.txt:{at}: {line}\n" for at in (2, 3) for line in reversed(told)))
    edges = write(folder, "n.txt", "start ck=0 d=1 e=0 q=0\n#clock ck\n")
    for job, *more in (["summary"], ["expect"], ["why", "y"], ["page"]):
        yield f"an edge that is not written out, {job}", run([job, unread, edges] + more, folder), (
            2, "", f"hazard-look: {folder}/n.txt:2: the edge is not written out; call `hazard-look clock` first\n")
    yield from _plain_changes(folder, run, write, bench, start)
    early = write(folder, "e.txt", "#clock ck\n" + start)
    yield "an edge before the start", run(["clock", bench, early], folder), (
        4, "", f"hazard-look: {folder}/e.txt:1: an edge stands after the start\n")
    wrong = [("#clock dk", 4), ("change d=0 #clock ck", 4), ("#clock ck=2", 4), ("#clock ck twice", 4), ("#clocks", 4), ("# clock ck", 4), ("# a remark #clock ck", 4), ("#clock ck #expects y clean", 4)]
    for text, status in wrong:
        yield f"clock {text!r}", run(["clock", bench, write(folder, "c.txt", start + text + "\n")], folder)[0], status
    latch = write(folder, "l.bench", "INPUT(r)\nINPUT(s)\nq = NOR(r, qb)\nqb = NOR(s, q)\n")
    yield "a race", run(["clock", latch, write(folder, "l.txt", "start r=1 s=1\nchange r=0 s=0\n#clock")], folder)[::2], (
        1, f"hazard-look: {folder}/l.txt:2: q does not settle after `change r=0 s=0`\n")
    yield "nothing is written of a script that has a fault", run(["clock", bench, write(folder, "c.txt", start + "#clock ck\n#clock dk\n")], folder)[:2], (4, "")


def _plain_changes(folder, run, write, bench, start):
    """A summary warns of a plain change of a clock that leaves flip-flops behind; not if a change gives them what they read, if they read
    what they have, or if they are reset."""
    kept = lambda first, more, edge: [f"flip-flop {first}{more}: a plain change of a clock moves no flip-flop, a line `#clock {edge}` does"]
    cases = [("change ck=1\n", kept("c", " and 1 more keep their bits", "ck")), ("change ck=1\nchange c=1\n", kept("e", " keeps its bit", "ck")), ("change ck=1 c=1\nchange e=0\n", []),
             ("change d=0\nchange ck=1\nchange ck=0\n", kept("b", " keeps its bit", "ck=0")), ("change r=1\nchange ck=1 c=1\n", []), ("change ck=1 d=0\n", kept("e", " keeps its bit", "NAME"))]
    for text, wanted in cases:
        path = write(folder, "k.txt", start.replace("a=0", "a=1") + text)
        found = run(["summary", bench, path], folder)[2].splitlines()
        yield f"plain changes {text!r}", [line.split(": ", 2)[2] for line in found], wanted
    written = run(["clock", bench, write(folder, "k.clk", start + "#clock ck\n#clock ck=0\n")], folder)[1]
    yield "edges that are written out", run(["summary", bench, write(folder, "k.txt", written)], folder)[2], ""
