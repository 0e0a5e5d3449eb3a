"""What a long script costs, what a terminal is told, and netlists from Verilog in one command."""
import os
import pty
import re
import shutil
import subprocess
import sys

CHANGES = 10_000
# a flip-flop whose gates stand on some lines of a source text, in a file of this name
VERILOG = "module top(input s, x, y, ck, output z, output reg q);\n  wire n = ~s;\n  assign z = (s & x)\n           | (n & y);\n  always @(posedge ck) q <= z;\nendmodule\n"


def costs(folder, run, write, program):
    """Rows of name, found, wanted: jobs on 10,000 changes call `hazard` once or twice."""
    counting = write(folder, "counting", f'#!/bin/sh\necho call >> "{folder}/calls"\nexec "{program}" "$@"\n')
    os.chmod(counting, 0o755)
    write(folder, "i.bench", "INPUT(a)\nz = NOT(a)\n")
    write(folder, "i.txt", "start a=0 #expect settled\n" + "".join(f"change a={(at + 1) % 2} #expect z single\n" for at in range(CHANGES)))
    write(folder, "f.bench", "INPUT(ck)\nOUTPUT(z)\nd = NOT(q)\nq = DFF(d)\nz = AND(q, ck)\n")
    write(folder, "f.txt", "start ck=0 q=0\n" + "".join(f"#clock ck={(at + 1) % 2} #expect z clean\n" for at in range(CHANGES // 2)))
    for job, files, calls in (("expect", ["i.bench", "i.txt"], 1), ("page", ["i.bench", "i.txt"], 1), ("summary", ["i.bench", "i.txt"], 1), ("clock", ["f.bench", "f.txt"], 2)):
        write(folder, "calls", "")
        status = run([job, "--hazard", counting] + files, folder)[0]
        with open(os.path.join(folder, "calls"), encoding="ascii") as file:
            called = file.read().count("call")
        yield f"{job} of {CHANGES} changes", (status, called <= calls), (0, True)


def of_lines(folder, call, write):
    """Rows of name, found, wanted: the work of a job grows no faster than the changes, as counted by the functions that it calls."""
    bench, clocked = write(folder, "g.bench", "INPUT(a)\nz = NOT(a)\n"), write(folder, "h.bench", "INPUT(ck)\nOUTPUT(z)\nd = NOT(q)\nq = DFF(d)\nz = AND(q, ck)\n")
    told = "start a=0 #expect settled, z clean\n{}#expect edges z <= 9 in 2..8\n"
    texts = {"expect": lambda count: told.format("".join(f"change a={(at + 1) % 2} #expect z single\n" for at in range(count))),
             "starts": lambda count: "".join(f"start a={at % 2} #expect z single\nchange a={(at + 1) % 2} #expect edges z <= 1 in {at + 1}\n" for at in range(count)),
             "clock": lambda count: "start ck=0 q=0\n" + "".join(f"#clock ck={(at + 1) % 2} #expect z clean\n" for at in range(count))}
    for name, job in (("expect", "expect"), ("starts", "expect"), ("expect", "summary"), ("expect", "page"), ("clock", "clock")):
        counts = [_calls(call, [job, clocked if name == "clock" else bench, write(folder, "g.txt", texts[name](count))]) for count in ((60, 240) if name == "starts" else (300, 1200))]
        yield f"{job} of {name} is linear", (counts[0][1], counts[1][1], counts[1][0] < 4.5 * counts[0][0]), (0, 0, True)


def _calls(call, words):
    """How many functions a job calls, and its status."""
    count = 0

    def note(_, event, __):
        nonlocal count
        count += event in ("call", "c_call")

    sys.setprofile(note)
    try:
        status, _ = call(words)
    finally:
        sys.setprofile(None)
    return count, status


def of_why(folder, run, write):
    """Rows of name, found, wanted: `why` on a pulse that goes through 60,000 gates."""
    gates = "".join(f"g{at} = {'NOT' if at % 2 else 'BUFF'}({f'g{at - 1}' if at else 'h'})\n" for at in range(60_000))
    write(folder, "w.bench", "INPUT(a)\nn = NOT(a)\nh = AND(a, n)\n" + gates)
    write(folder, "w.txt", "start a=0\nchange a=1\n")
    status, text, _ = run(["why", "w.bench", "w.txt", "g59999"], folder)
    chain = "".join(f"c{at} = NOT({f'c{at - 1}' if at else 'r'})\n" for at in range(150))
    write(folder, "l.bench", f"INPUT(r)\nINPUT(s)\n{chain}q = NOR(c149, qb)\nqb = NOR(s, q)\n")
    long = run(["why", "l.bench", write(folder, "l.txt", "start r=1 s=1\nchange r=0 s=0\n"), "q"], folder)[1].splitlines()
    yield "why of an unsettled node behind a long way", (len(long) < 100, "q ends at 0 if r, c0(1), c0, c1(1), .., c148, c149(1), c149, q(1) are slower than s, qb(1), qb, q(2)" in long[3],
                                                         long[4:7]), (True, True, ["the steps from 267 on; --save keeps all", "wires are not drawn", " " * 9 + "   ".join(map(str, range(268, 308, 2)))])
    echo = run(["why", "l.bench", write(folder, "l.txt", "start r=0 s=0 q=1\nchange r=1\n"), "q"], folder)[1].splitlines()
    moving = [line for line in echo if re.match(r"c\d", line)]
    yield "rows of a block move in it", (len(moving) > 30, all("/" in line or "\\" in line for line in moving)), (True, True)
    yield "why of 60,000 gates", (status, "g59999 pulses if n(1), n, h(2) are slower than h(1), h" in text), (0, True)


def of_cones(folder, call, write, network):
    """Rows of name, found, wanted: how often `why` looks for what a node depends on does not grow with the gates of a path that races."""
    asked, cone = [], network.Network.cone
    network.Network.cone = lambda self, node: asked.append(node) or cone(self, node)
    try:
        for gates in (11, 301):
            chain = "".join(f"c{at} = NOT({f'c{at - 1}' if at else 'a'})\n" for at in range(gates))
            files = [write(folder, "c.bench", f"INPUT(a)\n{chain}z = AND(a, c{gates - 1})\n"), write(folder, "c.txt", "start a=1\nchange a=0\n")]
            asked.clear()
            status, text = call(["why"] + files + ["z"])
            yield f"cones behind {gates} gates", (status, f"1 wire against {gates + 1} gates" in text, len(asked) < 10), (0, True, True)
    finally:
        network.Network.cone = cone


def terminals(folder, command, run, write, program):
    """Colours and a line on a terminal; nothing of them elsewhere, or if NO_COLOR is set."""
    words = [command, "summary", write(folder, "h.bench", "INPUT(a)\nINPUT(b)\nn = NOT(a)\nh = AND(a, n)\n"), write(folder, "h.txt", "start a=0 b=0\nchange a=1\nchange b=1\n")]
    plain = run(words[1:], folder)[1]
    yield "no colours in a file", "\033" in plain, False
    coloured = _on_terminal(words, {"TERM": "xterm"})
    yield "colours on a terminal", ("\033[33mstatic-0\033[0m" in coloured, "\033[32mclean\033[0m" in coloured), (True, True)
    yield "no colours if they are not wanted", _on_terminal(words, {"NO_COLOR": "1", "TERM": "xterm"}).replace("\r\n", "\n"), plain
    slow = write(folder, "slow", f"#!/bin/sh\n'{program}' \"$@\" | while read -r line; do case $line in change*) sleep 1.5;; esac; echo \"$line\"; done\n")
    os.chmod(slow, 0o755)
    told = _on_terminal(words[:2] + ["--hazard", slow] + words[2:], {"NO_COLOR": "1"})
    yield "a line about a long job", ("\rhazard-look: change 2 " in told, told.rstrip().endswith("\033[K")), (True, True)


def _on_terminal(words, more):
    """What a command writes on a terminal."""
    master, slave = pty.openpty()
    environment = {name: value for name, value in os.environ.items() if name != "NO_COLOR"}
    with subprocess.Popen(words, stdin=subprocess.DEVNULL, stdout=slave, stderr=slave, env=dict(environment, **more)) as running:
        os.close(slave)
        told = b""
        while True:
            try:
                part = os.read(master, 4096)
            except OSError:
                break
            if not part:
                break
            told += part
        running.wait()
    os.close(master)
    return told.decode()


def verilog(folder, run, write, environment):
    """One command from Verilog to a netlist, with the names and the lines of the source."""
    write(folder, "top.v", VERILOG)
    empty = os.path.join(folder, "empty")
    os.mkdir(empty)
    for name in ("python3", "env"):
        os.symlink(shutil.which(name), os.path.join(empty, name))
    status, out, errors = run(["from-verilog", "top.v"], folder, env=dict(environment, PATH=empty))
    yield "without yosys", (status, out, errors.startswith("hazard-look: yosys is not installed")), (127, "", True)
    if not shutil.which("yosys"):
        print("skipped: from-verilog: yosys is not installed")
        return
    status, out, errors = run(["from-verilog", "top.v"], folder)
    yield "a start from Verilog", (status, errors), (0, "start s=? x=? y=? ck=? q=?\n")
    # versions of yosys differ in the order of cells and in the names that they make
    yield "lines of the source", sorted(re.sub(r"OR\(.*?\)", "OR(..)", line) for line in out.splitlines() if line.startswith(("z =", "n =", "q ="))), [
        "n = NOT(s)  # top.v:2", "q = DFF(z)  # clock ck rising  # top.v:5", "z = OR(..)  # top.v:3"]
    write(folder, "top.bench", out)
    write(folder, "top.txt", "start s=1 x=1 y=1 ck=0 q=1\nchange s=0 #expect z steady\n")
    place = next(number for number, line in enumerate(out.splitlines(), 1) if line.startswith("z ="))
    yield "a finding with its source", run(["expect", "top.bench", "top.txt"], folder)[1].splitlines()[0], (
        f"top.txt:2: change 1 s=0: z steady: its class is static-1 (top.v:3, top.bench:{place})")
    write(folder, "pulse.v", "module pulse(input a, output z);\n  wire b = ~a, c = ~b, d = ~c;\n  assign z = a & d;\nendmodule\n")
    yield "each gate of the source", run(["from-verilog", "--gates", "pulse.v"], folder)[1].count("NOT("), 3
    write(folder, "bad.v", "module x(input a\n")
    for words, status, part in ((["bad.v"], 3, "yosys: bad.v:"), (["none.v"], 6, "none.v: No such file"), (["--top", "none", "top.v"], 3, "yosys: ERROR"),
                                (["pulse.v", "top.v", "--top", "pulse"], 0, "start a=?"), (["pulse.v", "top.v"], 0, "# not in the netlist: pulse, as")):
        done = run(["from-verilog"] + words, folder)
        yield f"from Verilog: {words}", (done[0], part in done[2]), (status, True)
