"""The commands of a shell that the pages show: parts of `tests/run`.

Each part takes the program, its companion and a folder of its own, and yields a name, what was found, and what is wanted. A command whose
tool is not installed is left out, by name. What opens a window or asks a cluster is stood in for.
"""
import os
import re
import shutil
import subprocess

from calls import write

HERE = os.path.dirname(os.path.abspath(__file__))
ROOT = os.path.dirname(HERE)
USING = "docs/USING.md"
MANUAL = "docs/hazard.1"
LOOK_MANUAL = "docs/hazard-look.1"
# other names of a tool
NAMES = {"abc": ("abc", "yosys-abc", "berkeley-abc")}
STAND_INS = {
    "gtkwave": '#!/bin/sh\ntest -s "$1"\n',
}
# what stands in for a tool that is not installed
SPARE = {
    # one call after the other: parallel COMMAND ::: FILE..
    "parallel": '#!/bin/bash\nfor file in "${@:3}"; do name=${file##*/}; line=${1//"{/}"/$name}; sh -c "${line//"{}"/$file}" || exit; done\n',
}
MULTIPLEXER = "module top(input s, x, y, output z);\n  assign z = (s & x) | (~s & y) | (x & y);\nendmodule\n"
MAPPED = "module top(input s, x, y, output z);\n  MUX2 cell1(.S(s), .A(y), .B(x), .Z(z));\nendmodule\n"
CELLS = "module MUX2(input S, A, B, output Z);\n  assign Z = (~S & A) | (S & B);\nendmodule\n"
SCRIPT = "start s=1 x=1 y=1\nchange s=0\n"
# a pulse generator, whose inverters an optimiser takes away
PULSE = "module top(input a, output z);\n  wire b = ~a, c = ~b, d = ~c;\n  assign z = a & d;\nendmodule\n"
# a multiplexer behind a flip-flop, with a row that covers its hazard
MACHINE = ".model machine\n.inputs ck x y\n.outputs z\n.latch z s re ck 1\n.names s x y z\n11- 1\n0-1 1\n-11 1\n.end\n"
# a flip-flop with set and reset
SET_RESET = "module top(input ck, s, r, d, output reg q);\n  always @(posedge ck or posedge s or posedge r) if (r) q <= 0; else if (s) q <= 1; else q <= d;\nendmodule\n"
# the files that the reader of the page has
FILES = {"controller.v": MULTIPLEXER, "top.v": MULTIPLEXER, "mapped.v": MAPPED, "cells.v": CELLS, "script.txt": SCRIPT, "pulse.v": PULSE,
         "machine.blif": MACHINE}
# what a block leaves: a file, and how it begins or what it has
LEFT = {"controller.blif": ".names", "pulse.blif": ".names a d z", "machine.bench": "s = DFF(z)", "top.bench": "INPUT(s)", "cover.runs": "runs 2\n", "cover.vcd": "$timescale",
        "answers/0000": "patterns 4 open 0 unstable 0 unsettled 0\n"}
# changes of which some settle, one is static, and the last but one is stopped
CHANGES = "start r=1 s=0\nchange r=0\nchange s=1\nchange s=0\nchange s=1 r=1\nchange s=0 r=0\nchange r=1\n"
LATCH = "INPUT(r)\nINPUT(s)\nend = NOR(r, runs)\nruns = NOR(s, end)\n"


def read(folder, name):
    path = os.path.join(folder, name)
    if not os.path.isfile(path):
        return ""
    with open(path, encoding="utf-8", errors="replace") as file:
        return file.read()


def tools(program, companion, folder):
    """A folder for the path: the program, its companion, tools under the names that the pages have, and what stands in for others."""
    room = os.path.join(folder, "bin")
    os.mkdir(room)
    for name, path in {"hazard": program, "hazard-look": companion}.items():
        os.symlink(path, os.path.join(room, name))
    spare = {name: text for name, text in SPARE.items() if not shutil.which(name)}
    for name, text in {**STAND_INS, **spare}.items():
        write(room, name, text)
        os.chmod(os.path.join(room, name), 0o755)
    for name, others in NAMES.items():
        found = next(filter(shutil.which, others), None)
        if found:
            os.symlink(shutil.which(found), os.path.join(room, name))
    return dict(os.environ, PATH=room + os.pathsep + os.environ["PATH"])


def shell(text, folder, env):
    """The status of some lines of a shell, which end at the first that fails."""
    done = subprocess.run(["bash", "-euc", text], cwd=folder, env=env, stdin=subprocess.DEVNULL, stdout=subprocess.PIPE, stderr=subprocess.PIPE, timeout=600)
    return done.returncode


def missing(text, env):
    """The tools that begin a line, or that `from-verilog` calls, and that are not installed."""
    words = {line.split()[0] for line in text.splitlines() if line} | ({"yosys"} if "from-verilog" in text else set())
    return sorted(word for word in words if not word.startswith("./") and not shutil.which(word, path=env["PATH"]))


def shell_blocks(program, companion, folder):
    """The blocks of README and USING for a shell, in their order, and each command in a line of USING that names a netlist."""
    env = tools(program, companion, folder)
    os.symlink(os.path.join(ROOT, "examples"), os.path.join(folder, "examples"))
    for name, text in FILES.items():
        write(folder, name, text)
    shutil.copy(os.path.join(ROOT, "examples", "multiplexer.bench"), os.path.join(folder, "net.bench"))
    blocks = re.findall(r"^```(\S*)\n(.*?)^```$", read(ROOT, USING), re.S | re.M)
    for name, text in blocks:
        if "." in name:
            write(folder, name, text)
    scripts = [text for name, text in blocks if name == "sh"]
    yield "blocks for a shell", len(scripts) > 0, True
    left_out = False
    for text in scripts:
        absent = missing(text, env)
        if absent:
            print(f"pages: {', '.join(absent)} is not installed, so its commands are skipped")
            left_out = True
            continue
        yield f"{USING}: {text}", shell(text, folder, env), 0
    for name, part in LEFT.items():
        if not left_out:
            yield f"{USING}: {name}", part in read(folder, name), True
    prose = re.sub(r"^```.*?^```$", "", read(ROOT, USING), flags=re.S | re.M)
    for text in re.findall(r"`(hazard(?:-look)? [^`]*\.(?:bench|blif) [^`]*)`", prose):
        yield f"{USING}: {text}", shell(text, folder, env), 0
    readme = [text for name, text in re.findall(r"^```(\S*)\n(.*?)^```$", read(ROOT, "README.md"), re.S | re.M) if name == "sh"]
    for line in "".join(readme).splitlines():
        word, *words = line.split()
        if words:
            yield f"README.md: {line}", shell(line, ROOT, env), 0
        else:
            yield f"README.md: {line}", os.access(os.path.join(ROOT, word), os.X_OK), True


def synthesis_rows(program, companion, folder):
    """What USING says of a hazard cover that Yosys and ABC read and wrote, and of a flip-flop with set and reset."""
    env = tools(program, companion, folder)
    absent = missing("yosys\nabc\n", env)
    if absent:
        print(f"pages: {', '.join(absent)} is not installed, so the rows of {USING} are skipped")
        return
    page = read(ROOT, USING)
    spoken_of = re.search(r"what Yosys ([0-9.]+) and its ABC", page)[1]
    version = subprocess.run(["yosys", "-V"], env=env, stdout=subprocess.PIPE, check=False).stdout.decode().split()[1:2]
    if version != [spoken_of]:
        print(f"pages: yosys is not the version {spoken_of}, of which the rows of {USING} speak, so they are skipped")
        return
    for name, text in (("top.v", MULTIPLEXER), ("set.v", SET_RESET), ("cover.blif", re.search(r"^```cover\.blif\n(.*?)^```$", page, re.S | re.M)[1]), ("n.txt", SCRIPT)):
        write(folder, name, text)
    table = page[page.index("| Commands | `z` |"):].split("\n\n")[0].splitlines()[2:]
    rows = [re.match(r"\| (ABC: )?`([^`]*)`.* \| `(\w+)`", line).groups() for line in table]
    calls = [(f'abc -c "{words}"' if is_abc else f'yosys -q -p "read_verilog top.v; {words}; write_blif again.blif"', "again.blif", kind) for is_abc, words, kind in rows]
    yield "rows of commands", len(calls) > 2, True
    for text, netlist, kind in calls:
        status = shell(f"{text}\nhazard analyse {netlist} n.txt > n.report", folder, env)
        yield f"{USING}: {text}", (status, re.findall(r"^z start .* (\S+)$", read(folder, "n.report"), re.M)), (0, [kind])
    for words, status in (("", 3), ("; async2sync", 0)):
        text = f'yosys -q -p "read_verilog set.v; synth -flatten -top top{words}; write_json set.json"\nhazard-look from-yosys set.json'
        yield f"{USING}: {text}", shell(text, folder, env), status
    yield from _gates_that_stay(page, folder, env)


def _gates_that_stay(page, folder, env):
    """Of the commands that keep each gate of a pulse generator, and each row of a BLIF with a flip-flop: the class of `z`. What the
    page warns of is so."""
    blocks = [text for text in re.findall(r"^```sh\n(.*?)^```$", page, re.S | re.M) if "pulse.v" in text or "machine.blif" in text]
    yield f"{USING}: commands that keep gates", len(blocks), 2
    keep, rows = blocks
    write(folder, "p.txt", "start a=0\nchange a=1\n")
    write(folder, "m.txt", "start ck=0 x=1 y=1 s=1\nchange s=0\n")
    constants = "start ck=0 x=1 y=1 const0=0 const1=1 s=1\nchange s=0\n"
    write(folder, "c.txt", constants)
    bare = MACHINE.replace("-11 1\n", "")
    optimised = keep.replace("hierarchy -auto-top; flatten; simplemap;", "synth -flatten -noabc;")
    lookup = rows.replace("-sop ", "")
    cases = [("pulse.v", PULSE, keep, "pulse.blif p.txt", ["static"]), ("pulse.v", PULSE, optimised, "pulse.blif p.txt", []),
             ("machine.blif", MACHINE, rows, "machine.bench m.txt", ["steady"]), ("machine.blif", bare, rows, "machine.bench m.txt", ["static"]),
             ("machine.blif", bare, lookup, "machine.bench c.txt", ["steady"])]
    for name, source, text, words, kinds in cases:
        write(folder, name, source)
        status = shell(text, folder, env)
        shell(f"hazard analyse {words} > n.report || true", folder, env)
        yield f"{USING}: {text}", (status, re.findall(r"^z start .* (\S+)$", read(folder, "n.report"), re.M)), (0, kinds)


def refused_lines(program, companion, folder):
    """The lines that USING shows as refused, each as the only line of a netlist."""
    env = tools(program, companion, folder)
    page = read(ROOT, USING)
    rows = page[page.index("## What is refused in a netlist"):].splitlines()
    tried = 0
    for row in rows:
        cells = [cell.strip() for cell in row.split(" | ")]
        answer = re.fullmatch(r"`line L: ([^`]*)`", cells[1]) if len(cells) > 2 else None
        for line in re.findall(r"`([^`]*)`", cells[0]) if answer else ():
            if ".." in line or not re.match(r"[.A-Za-z].* ", line):
                continue
            name = "line.blif" if "BLIF" in cells[0] else "line.bench"
            write(folder, name, line + "\n")
            status = shell(f"hazard analyse {name} {name} > line.report", folder, env)
            yield f"{USING}: {line}", (status, read(folder, "line.report")), (3, f"refused: netlist line 1: {answer[1]}\n")
            tried += 1
    yield f"refused lines of {USING}", tried > 8, True


def look_examples(program, companion, folder):
    """The examples of the manual page of `hazard-look`."""
    env = tools(program, companion, folder)
    page = read(ROOT, LOOK_MANUAL).replace("\\-", "-")
    netlist, script, *calls = re.findall(r"^\.nf\n(.*?)^\.fi$", page[page.index(".SH EXAMPLES"):], re.S | re.M)
    write(folder, "mux.bench", netlist)
    write(folder, "mux.txt", script)
    for text in calls:
        yield f"{LOOK_MANUAL}: {text}", shell(text, folder, env), 0
    yield f"calls of {LOOK_MANUAL}", len(calls) > 1, True


def manual_examples(program, companion, folder):
    """The examples of the manual page; and its line that saves runs, on each change of a script of which some are stopped."""
    env = tools(program, companion, folder)
    page = read(ROOT, MANUAL).replace("\\-", "-").replace("\\e", "\\")
    netlist, script, *calls = re.findall(r"^\.nf\n(.*?)^\.fi$", page[page.index(".SH EXAMPLES"):], re.S | re.M)
    write(folder, "latch.bench", netlist)
    write(folder, "latch.txt", script)
    for text in calls:
        yield f"{MANUAL}: {text}", shell(text, folder, env), 0
    save = next(line for text in calls for line in text.splitlines() if line.startswith("sed "))
    write(folder, "latch.bench", LATCH)
    write(folder, "latch.txt", CHANGES)
    yield "a report of several changes", shell("hazard analyse latch.bench latch.txt > latch.report", folder, env), 0
    for change in range(1, CHANGES.count("\n")):
        text = save.replace("change 1 ", f"change {change} ")
        stopped = f"change {change} " in read(folder, "latch.report") and "stopped" in read(folder, "latch.report").split(f"change {change} ")[1].split("change")[0]
        wanted = "" if stopped else "runs 2\n"
        yield f"{MANUAL}: runs of change {change}", (shell(text, folder, env), read(folder, "latch.runs")[:7]), (0, wanted)
        if not stopped:
            yield f"{MANUAL}: runs of change {change}, replayed", shell("hazard replay latch.bench latch.runs", folder, env), 0


PARTS = (shell_blocks, synthesis_rows, refused_lines, manual_examples, look_examples)
