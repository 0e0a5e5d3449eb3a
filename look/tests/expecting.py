"""Expectations that hold, that do not, that can't be read, and that could be left out unseen."""
import json
import os
import re
import xml.etree.ElementTree as tree

from hazard_look import moves, report

ROOT = os.path.dirname(os.path.dirname(os.path.dirname(os.path.abspath(__file__))))
GATE = "INPUT(ck)\nINPUT(en)\ngck = AND(ck, en)\n"
# a clock edge at which z pulses by itself, and one at which it is cut in two
EDGE = "INPUT(ck)\nINPUT(a)\nn = NOT(ck)\nu = AND(ck, a)\nv = AND(n, a)\nz = OR(u, v)\nco = AND(ck, q)\nd = NOT(q)\nq = DFF(d)\n"


def rows(folder, run, write, example, expected):
    """Rows of name, found, wanted."""
    gate, mutex = write(folder, "g.bench", GATE), example("mutex")[0]
    asked = lambda bench, text: run(["expect", bench, write(folder, "s.txt", text)], folder)
    told = lambda text: asked(gate, text)[:2]
    yield from _judged(folder, gate, mutex, asked, expected)
    yield from _unread(gate, asked)
    yield from _overridden(told)
    yield from _behind_starts(told)
    yield from _in_several()
    yield from _not_analysed(mutex, asked)
    yield from _edges(folder, run, write)
    yield from _as_data(folder, gate, run, write)
    yield from _as_tests(folder, run, write)


def _judged(folder, gate, mutex, asked, expected):
    start = "start ck=0 en=0\n"
    cases = [
        (gate, "start ck=1 en=1\nchange en=0 #expect gck steady\n", 1,
         f"{folder}/s.txt:2: change 1 en=0: gck steady: its class is single ({gate}:3)\n1 expectation, 1 failed\n"),
        (gate, "start ck=1 en=1 #expect gck single\nchange en=0\n#expect settled, gck steady or single\n", 0, "2 expectations, 0 failed\n"),
        (gate, start + "change ck=1 #expect never en=1\n", 0, "1 expectation, 0 failed\n"),
        (gate, start + "change ck=1 #expect never en=0 gck=0\n", 1,
         f"{folder}/s.txt:2: change 1 ck=1: never en=0 gck=0: it is so before the change\n1 expectation, 1 failed\n"),
        (gate, start + "change ck=1 en=1 #expect never ck=1 en=0 gck=1\n", 0,
         f"{folder}/s.txt:2: change 1 ck=1 en=1: never ck=1 en=0 gck=1: not shown, which is no proof\n1 expectation, 0 failed\n"),
        (mutex, "start request1=0 request2=0\nchange request1=1 request2=1 #expect never grant1=1 grant2=1, settled\n", 1,
         expected("expect-grants.txt").replace("SCRIPT", f"{folder}/s.txt").replace("NETLIST", mutex)),
    ]
    for bench, text, status, answer in cases:
        yield f"expect {text!r}", asked(bench, text)[:2], (status, answer)


def _unread(gate, asked):
    """What can't be read, or would be left out, ends with 2, and a line with the place of each."""
    wrong = [("#expecting", "`#expecting` is read as a remark: write `#expect`"), ("#expect", "`` is no expectation"), ("#expect gck stedy", "no class is named stedy"),
             ("#expect gock steady", "no node is named gock"), ("#expect never", "after `never` stand assignments"), ("#expect never gck=2", "after `never` stand"),
             ("#expect gck steady single", "is no expectation"), ("#expect gck steady as ever", "a remark begins with another #"), ("#expects gck steady", "`#expects`"),
             ("#Expect gck steady", "`#Expect`"), ("# expect gck steady", "`# expect` is read as a remark"), ("#expect ck steady or single  # expect gck clean", "`# expect`"),
             ("# expects gck steady", "`# expects`"), ("# a remark #expect gck clean", "stands behind a remark"), ("# here we expect gck clean", "`expect gck clean` stands in a remark"),
             ("# expected: never gck=1", "`expected: never gck=1` stands in a remark"),
             ("#exepct gck clean", "`#exepct` is read as a remark: write `#expect`"), ("#xpect gck stedy", "`#xpect`"), ("# expectation: gck clean", "`expectation: gck clean` stands in a remark"),
             ("# see exect gck clean, ck clean", "`exect gck clean` stands in a remark"), ("#\u200bexpect gck clean", "is read as a remark"), ("#\u00a0expect gck clean", "is read as a remark"),
             ("#expect never gck=1 gck=0", "after `never` stands each node once"), ("#expect gck clean\n#clok ck", "`#clok` is read as a remark: write `#clock`"),
             ("#expect gck clean\n#clk", "`#clk` is read"), ("#expect gck clean\n# clock ck=0", "`# clock` is read as a remark"), ("#expect gck clean\nstart ck=0 en=0 #expect gck clean", "no change stands behind this start"), ("#expect edges gck < 2", "`edges NODE <= N`"), ("#expect edges gck <= x", "`edges NODE <= N`"),
             ("#expect edges gock <= 1", "no node is named gock"), ("#expect gck clean in 1..2", "the script has the changes 1 to 1"), ("#expect gck clean in 0", "the script has the changes"),
             ("#expect edge: gck clean", "no edge ends here"), ("#expect settled,", "`` is no expectation"), ("#expect gck clean and ck clean", "is no expectation"), ("#expect gck clean; ck clean", "is no expectation")]
    for text, part in wrong:
        status, out, errors = asked(gate, f"start ck=0 en=0\nchange ck=1 {text}\n")
        yield f"unread: {text}", (status, out, f":{2 + text.count(chr(10))}: " in errors, part in errors, errors.startswith("hazard-look: ")), (2, "", True, True, True)
    status, out, errors = asked(gate, "start ck=0 en=0 # expect x\nchange ck=1 #expects y\n")
    yield "two faults", (status, [line.split(": ")[1].split(":")[-1] for line in errors.splitlines()]), (2, ["1", "2"])
    status, out, errors = asked(gate, "start ck=0 en=0 #expect gck steady #expect edge: gck clean\nchange ck=1\n")
    yield "an edge of a script without one", (status, out, errors), (2, "", f"hazard-look: {errors.split()[1]} `edge: gck clean`: no edge follows; it is expected of edges, which `hazard-look clock` writes\n")
    for text in ("", "# we expect little of gck", "# that is not expected", "# clock gating", "#comment", "# block ck"):
        status, out, errors = asked(gate, f"start ck=0 en=0\nchange ck=1 {text}\n")
        yield f"no expectation: {text}", (status, out, errors), (2, "", "hazard-look: no comment of the script begins with `#expect`, so nothing is checked\n")


def _overridden(told):
    """What a change expects of a node goes before the defaults; what spans some changes is judged of all of them together."""
    script = "start ck=0 en=1 #expect gck steady\nchange ck=1 #expect gck single\nchange ck=0 #expect gck single\nchange en=0\n"
    yield "defaults that changes override", told(script), (0, "3 expectations, 0 failed\n")
    for text, status in (("edges gck <= 2 in 1..2", 0), ("edges gck <= 1 in 1..2", 1), ("gck static in 1..2", 0), ("gck clean in 1..2", 1), ("gck single in 2..3", 0), ("edges gck <= 0 in 3", 0),
                         ("edges gck <= 1 in 1, edges gck <= 1 in 2", 0)):
        yield f"across changes: {text}", told(f"start ck=0 en=1\nchange ck=1\nchange ck=0\nchange en=0 #expect {text}\n")[0], status


def _behind_starts(told):
    """What stands behind a later start is expected of its changes, and goes before what is expected of all."""
    start, up, down = "start ck=0 en=1", "change ck=1\n", "change ck=0\n"
    cases = [(f"{start}\n{up}{start} #expect gck steady\n{up}", 1, ["3: change 2 ck=1: gck steady"]), (f"{start} #expect gck steady\n{up}{start} #expect gck single\n{up}{down}{start}\n{up}", 1, ["1: change 1", "1: change 4"]),
             (f"{start}\n{up}{start}\n#expect gck single\n{up}{down}{start}\nchange en=0\n", 0, []), (f"{start}\n{up}{start}\n{up}#expect gck steady in 1, gck single in 2\n", 1, ["5: change 1 ck=1: gck steady in 1"]),
             (f"{start} #expect gck single\n{up}{start} #expect gck clean\n{up}{down}#expect gck steady\n", 1, ["6: change 3"])]
    for text, status, parts in cases:
        found, out = told(text)
        yield f"behind starts: {text!r}", (found, [part for part, line in zip(parts, out.splitlines()) if f":{part}" not in line], out.count("its class")), (status, [], len(parts))


def _in_several():
    """What several changes together are: a class that is not shown in them is not shown of all of them."""
    kept, up, down = ("0", "0", 0, 2, "maybe-static"), ("0", "1", 1, 1, "single"), ("1", "0", 1, 1, "single")
    cases = [((up, down), "static"), ((up, ("1", "1", 0, 2, "maybe-static")), "maybe-dynamic"), ((kept, kept), "maybe-static"), ((up, ("1", "1", 2, 2, "static")), "dynamic"),
             ((kept, up, down, up), "dynamic"), ((up, ("1", "X", 1, None, "unsettled")), "unsettled"), ((up,), "single")]
    for rows_, kind in cases:
        found = moves.Moves(None)
        for number, row in enumerate(rows_, 1):
            found.add(report.Change(number, {}, {"z": report.Row("z", *row)}, [], None))
        yield f"together {[row[4] for row in rows_]}", found.row("z").kind, kind


def _not_analysed(mutex, asked):
    """What comes after a race that was wanted is one line, and it does not pass."""
    text = ("start request1=0 request2=0 #expect settled, grant1 clean\nchange request1=1 request2=1 #expect free1 unsettled, grant1 unsettled\n"
            "change request1=0\nchange request2=0\n")
    status, out, _ = asked(mutex, text)
    yield "not analysed", (status, [line.split(":", 1)[-1] for line in out.splitlines()]), (
        1, ["3: changes 2 to 3 are not analysed, free1 did not settle in change 1: 4 expectations not checked", "6 expectations, 0 failed, 4 not checked"])
    latch = "start request1=0 request2=0 #expect settled\nchange request1=1 request2=1\n"
    yield "a default that fails", asked(mutex, latch)[0], 1


def _edges(folder, run, write):
    """What is expected of an edge is expected of both its changes, and of the edge as a whole where that is said."""
    bench = write(folder, "e.bench", EDGE)
    cases = [("ck=0 #expect z clean", "ck=1 a=1 q=0", 1, "change 1 ck=0: z clean: its class is static-1"), ("ck=0 #expect u clean", "ck=1 a=1 q=0", 0, ""),
             ("ck #expect co clean", "ck=0 a=1 q=1", 0, ""), ("ck #expect edge: co clean", "ck=0 a=1 q=1", 1, "change 1 to 2 q=0: edge: co clean: its class is static-0"),
             ("ck #expect edge: edges co <= 1", "ck=0 a=1 q=1", 1, "it may make 2"), ("ck #expect edge: d single, edge: q single", "ck=0 a=1 q=1", 2, "is no expectation"),
             ("ck #expect edge: d single, q single", "ck=0 a=1 q=1", 0, ""), ("ck #expect edge: settled", "ck=0 a=1 q=1", 2, "speaks of each change alone")]
    for text, start, status, part in cases:
        written = run(["clock", bench, write(folder, "e.clk", f"start {start}\n#clock {text}\n")], folder)[1]
        found, out, errors = run(["expect", bench, write(folder, "e.txt", written)], folder)
        yield f"an edge: {text}", (found, part in out + errors), (status, True)
    written = run(["clock", bench, write(folder, "e.clk", "start ck=0 a=1 q=1 #expect edge: co clean\n#clock ck\n")], folder)[1]
    yield "a default of each edge", run(["expect", bench, write(folder, "e.txt", written)], folder)[0], 1
    out = run(["summary", bench, write(folder, "e.txt", written)], folder)[1]
    yield "a pulse across an edge", "1 to 2, one edge: 1 node pulses across the edge: co\n" in out, True


def _as_data(folder, gate, run, write):
    """The same as JSON, for both jobs, and the status of `summary --fail`."""
    text = write(folder, "j.txt", "start ck=1 en=1\nchange en=0 #expect gck steady\n")
    status, out, _ = run(["expect", "--json", "g.bench", "j.txt"], folder)
    found = json.loads(out)
    yield "expectations as data", (status, found["expectations"], found["failed"], found["findings"][0]["file"], found["findings"][0]["line"], found["findings"][0]["netlist"]), (
        1, 1, 1, "j.txt", 2, "g.bench:3")
    bench, text = write(folder, "h.bench", "INPUT(a)\n\nn = NOT(a)\nh = AND(a, n)\nk = BUFF(h)\n"), write(folder, "h.txt", "start a=0\n# up\nchange a=1\n")
    found = json.loads(run(["summary", "--json", bench, text], folder)[1])
    yield "a summary as data", [(one["node"], one["kind"], one["root"], one["place"].rsplit(":")[-1]) for one in found["changes"][0]["hazards"]], [
        ("h", "static-0", True, "4"), ("k", "static-0", False, "5")]
    with open(os.path.join(ROOT, "docs", "USING.md"), encoding="utf-8") as file:
        matcher = re.search(r"^\^.*\$$", file.read(), re.M)[0]
    told = run(["summary", "--fail", "h.bench", "h.txt"], folder)[1].splitlines() + run(["expect", "g.bench", "j.txt"], folder)[1].splitlines()
    told += run(["expect", "g.bench", write(folder, "k.txt", "start ck=1 en=1 #expects gck\nchange en=0\n")], folder)[2].splitlines()
    yield "what a problem matcher finds", [found and found.groups()[:2] for found in (re.match(matcher, line) for line in told)], [
        ("h.txt", "3"), ("h.txt", "3"), ("j.txt", "2"), None, (f"{folder}/k.txt", "1")]
    yield "a summary that fails", run(["summary", "--fail", "h.bench", "h.txt", "--roots"], folder)[:2], (
        1, "h.txt:3: change 1 a=1: h static-0: it is 0 before and after, and may pulse to 1 in between (h.bench:4)\n")
    yield "a summary that does not fail", run(["summary", "--fail", "h.bench", "h.txt", "--only", "n"], folder)[:2], (0, "0 findings\n")


def _as_tests(folder, run, write):
    """`--junit` has a test for each expectation in each change, whatever letters names have, also in a place that has few letters."""
    bench = write(folder, "j.bench", "INPUT(<&>)\nINPUT(r)\nINPUT(s)\n\"e = NOT(<&>)\nq = NOR(r, p)\np = NOR(s, q)\n")
    script = write(folder, "jé.txt", "start <&>=0 r=1 s=1 #expect \"e clean\nchange <&>=1 #expect \"e static, never <&>=0 \"e=0\nchange r=0 s=0\nchange r=1\n")
    status, text, _ = run(["expect", "--junit", bench, script], folder, env=dict(os.environ, PYTHONIOENCODING="ascii"))
    found = tree.fromstring(text)
    yield "a document for a CI", (status, text.isascii(), [dict(one.attrib) for one in found.iter("testsuite")]), (
        1, True, [{"name": script, "tests": "4", "failures": "1", "errors": "1", "skipped": "0"}])
    yield "its tests", [(one.get("line"), one.get("name"), [(part.tag, part.get("message")) for part in one]) for one in found.iter("testcase")], [
        ("2", 'line 2, change 1 <&>=1: "e static', [("failure", f"its class is single ({bench}:4)")]),
        ("2", 'line 2, change 1 <&>=1: never <&>=0 "e=0', [("properties", None)]),
        ("1", 'line 1, change 2 r=0 s=0: "e clean', []),
        ("1", 'line 1, change 3 r=1: "e clean', [("error", "not checked: q did not settle before")])]
    yield "its remarks", [one.get("value") for one in found.iter("property")], ["not shown, which is no proof"]
    yield "one form alone", run(["expect", "--junit", "--json", bench, script], folder)[:2], (2, "")
