"""Odd and hostile input: each call ends with one clear line and a status that isn't 0, and never with what Python says of a fault.

What `hazard` writes of a file by itself may stand before the line.
"""
import functools
import os
import resource
import signal
import subprocess

from hazard_look.program import find

LOOK = os.path.dirname(os.path.dirname(os.path.abspath(__file__)))
GATE = "INPUT(a)\ny = NOT(a)\n"
# names that a shell, a page or a pattern could take for something else
NAMES = ("</script><b>", '"q"', "'x'", "a\\b", "&amp;", "$_1_", "--x", "{{data}}", "*", "%d", "__proto__", "constructor")
JOBS = ("summary", "expect", "why", "page")
NOT_PLAIN = "not a plain file"


def rows(folder, command, run, write):
    """Rows of name, found, wanted."""
    files = [write(folder, "a.bench", GATE), write(folder, "a.txt", "start a=0\nchange a=1 #expect settled\n")]
    yield from _files(folder, run, write, files)
    yield from _programs(folder, run, write, files)
    yield from _names(folder, run, write)
    yield from _outputs(folder, command, run, files)
    yield from _no_room(folder, command, write)
    yield from _interrupted(folder, command, write)


def _ends(done, status, part):
    """Whether a call ended with a status and a last line that has a part."""
    found, _, errors = done
    lines = errors.splitlines() or [""]
    return found == status and lines[-1].startswith("hazard-look: ") and part in lines[-1] and "Traceback" not in errors


def _files(folder, run, write, files):
    """Empty files, folders, pipes and scripts without a change."""
    empty, bare = write(folder, "empty.txt", ""), write(folder, "bare.txt", "start a=0\n")
    nothing = write(folder, "empty.bench", "")
    os.mkdir(os.path.join(folder, "folder"))
    os.mkfifo(os.path.join(folder, "pipe"))
    for job in JOBS + ("clock",):
        more = ["y"] if job == "why" else []
        tried = [("an empty script", files[0], empty, 4, "line 0: order; no line is a statement"), ("a folder", files[0], "folder", 6, "second file not read"),
                 ("a folder for a netlist", "folder", files[1], 6, "first file not read"), ("a pipe", files[0], "pipe", 6, NOT_PLAIN), ("a pipe for a netlist", "pipe", files[1], 6, NOT_PLAIN)]
        tried += [("a script without a change", files[0], bare, 2, "the script has no change")] if job in JOBS else []
        for name, netlist, script, status, part in tried:
            yield f"{name}, {job}", _ends(run([job, netlist, script] + more, folder), status, part), True
    for name, netlist, status, part in (("an empty netlist", nothing, 3, "has no node"), ("a device", "/dev/null", 6, NOT_PLAIN), ("no name", "", 6, "first file not read")):
        yield f"{name}, start", _ends(run(["start", netlist], folder), status, part), True
    deep = write(folder, "deep.json", "[" * 200_000)
    for name, path, status in (("an empty design", empty, 3), ("a folder for a design", "folder", 6), ("a design that is too deep", deep, 3)):
        yield name, _ends(run(["from-yosys", path], folder), status, path), True
    for text, part in (('{"modules":{}}', "has no module"), ('{"modules":{"t":{"ports":{},"cells":{},"netnames":{}}}}', "neither ports nor cells")):
        yield f"a design {text}", _ends(run(["from-yosys", write(folder, "e.json", text)], folder), 3, part), True
    yield "a design for a netlist", _ends(run(["summary", write(folder, "d.json", "{}"), files[1]], folder), 3, "hazard-look from-yosys"), True


def _programs(folder, run, write, files):
    """Programs that are not `hazard`, or that come to a bad end."""
    made = {"killed": "#!/bin/sh\nkill -9 $$\n", "wrong": "#!/bin/sh\nexit 1\n", "strange": "no program\n", "early": "#!/bin/sh\necho netlist inputs 1 gates 1 wires 1 variables 3\necho start a=0 y=1\necho change 1 a=1\n"}
    for name, text in made.items():
        os.chmod(write(folder, name, text), 0o755)
    yield from _cut(folder, run, write)
    for path, status, part in (("/bin/true", 127, "does not write a report"), ("/bin/echo", 127, "does not write a report"), ("./early", 127, "does not write a report"),
                               ("./killed", 137, "ended by signal 9"), ("./wrong", 70, "ended with status 1"), ("./strange", 127, "can't be started")):
        yield f"the program {path}", _ends(run(["summary", "--hazard", path] + files, folder), status, part), True


def _cut(folder, run, write):
    """A `hazard` whose text ends too early, or that is killed behind it or while it replays a run: no job takes the part for the whole."""
    program = find(None, LOOK).path
    for name, text in (("short", f"'{program}' \"$@\" | sed '/^change 2 /,$d; /^all /d'\n"), ("behind", f"'{program}' \"$@\" | sed '/^change 2 /,$d'\nkill -9 $$\n"),
                       ("replayed", f"[ $1 = replay ] && kill -9 $$\nexec '{program}' \"$@\"\n")):
        os.chmod(write(folder, name, f"#!/bin/sh\n{text}"), 0o755)
    bench = write(folder, "cut.bench", "INPUT(a)\nn = NOT(a)\nz = AND(n, a)\n")
    script = write(folder, "cut.txt", "start a=0 #expect n single\nchange a=1\nchange a=0 #expect z static\nchange a=1\n")
    jobs = (["summary"], ["summary", "--fail"], ["summary", "--json"], ["expect"], ["expect", "--json"], ["clock"], ["orders"], ["page"], ["table"], ["table", "--fail"], ["table", "--page"])
    for words in jobs:
        for name, status, part in (("short", 70 if words[0] != "table" else 127, "ends before its end" if words[0] != "table" else "does not write a report"), ("behind", 137, "ended by signal 9")):
            yield f"{name}: {words}", _ends(run(words + ["--hazard", f"./{name}", bench, script], folder), status, part), True
    for words, more in (["why", ["z"]], ["page", []]):
        yield f"replayed: {words}", _ends(run([words, "--hazard", "./replayed", bench, script] + more, folder), 137, "ended by signal 9"), True
    write(folder, "never.txt", "start a=0\nchange a=1 #expect never z=1\n")
    yield "replayed: expect", _ends(run(["expect", "--hazard", "./replayed", bench, "never.txt"], folder), 137, "ended by signal 9"), True


def _names(folder, run, write):
    """Names of odd characters, in each job; and options that name nothing."""
    bench = write(folder, "n.bench", "INPUT(--only)\nINPUT(<b>)\n" + "".join(f"{name} = NAND(--only, <b>)\n" for name in NAMES))
    script = write(folder, "n.txt", "start --only=0 <b>=0  #expect --x single, settled\nchange --only=1 <b>=1\n")
    yield "the start of odd names", run(["start", bench], folder), (0, "start --only=? <b>=?\n", "")
    yield "the summary of odd names", run(["summary", bench, script], folder), (0, "1 --only=1 <b>=1: clean\n", "")
    yield "expectations of odd names", run(["expect", bench, script], folder), (0, "2 expectations, 0 failed\n", "")
    yield "a name like an option", run(["why", bench, script, "--", "--x"], folder)[0], 0
    yield "no name in a page ends its program", "</script><b>" in run(["page", bench, script], folder)[1], False
    for options, part in ((["--only", ""], "no node is named ``"), (["--only", "*,,"], "no node is named ``")):
        yield f"options {options}", _ends(run(["summary", bench, script] + options, folder), 2, part), True
    for change in ("0", "2", "-1"):
        yield f"change {change}", _ends(run(["why", bench, script, "--", "*", change], folder), 2, f"the script has no change {change}"), True


def _outputs(folder, command, run, files):
    """Output that can't be written: a full device, a closed one, a pipe whose reader has gone, and a place for a run that is none."""
    calls = [["start", files[0]], ["summary"] + files, ["expect"] + files, ["why"] + files + ["y"], ["page"] + files, ["clock"] + files]
    for words in calls:
        with open("/dev/full", "wb") as device:
            done = subprocess.run([command] + words, stdout=device, stderr=subprocess.PIPE, check=False)
        yield f"a full device, {words[0]}", (done.returncode, done.stderr.decode().splitlines()[-1:]), (
            8, ["hazard-look: standard output can't be written: No space left on device"])
        closed = subprocess.run(["sh", "-c", 'exec "$0" "$@" >&-', command] + words, stderr=subprocess.PIPE, check=False)
        yield f"no output, {words[0]}", (closed.returncode, closed.stderr), (8, b"hazard-look: standard output is closed\n")
        reader, writer = os.pipe()
        os.close(reader)
        with os.fdopen(writer, "wb") as unread:
            gone = subprocess.run([command] + words, stdout=unread, stderr=subprocess.PIPE, check=False)
        yield f"a pipe whose reader has gone, {words[0]}", (gone.returncode, b"hazard-look: standard" in gone.stderr), (8, False)
    yield from _errors(folder, command, files)
    for place in ("none/y.runs", "folder", ""):
        yield f"a run kept at {place!r}", _ends(run(["why"] + files + ["y", "--save", place], folder), 8, place), True
    spoilt = dict(os.environ, TMPDIR="/none", PYTHONPATH=folder)
    with open(os.path.join(folder, "sitecustomize.py"), "w", encoding="ascii") as file:
        file.write("import tempfile\ntempfile._candidate_tempdir_list = lambda: ['/none']\n")
    yield "no place for a short file", _ends(run(["start", files[0]], folder, env=spoilt), 8, "no file can be made"), True


def _no_room(folder, command, write):
    """A script that `clock` writes to a file without room for all of it is not there in part, and what stood before it is."""
    bench, before = write(folder, "q.bench", "INPUT(ck)\nd = NOT(q)\nq = DFF(d)  # clock ck rising\nz = AND(ck, q)\n"), "# kept\n" * 2000
    script, path = write(folder, "q.clk", "start ck=0 q=0\n" + "#clock ck\n" * 200), os.path.join(folder, "q.txt")
    for more, wanted, buffered in ((20_000, 0, ""), (10_000, 8, ""), (5_000, 8, ""), (10_000, 8, "1"), (5_000, 8, "1")):
        write(folder, "q.txt", before)
        limited = lambda: resource.setrlimit(resource.RLIMIT_FSIZE, (len(before) + more, len(before) + more))
        with open(path, "ab") as file:
            done = subprocess.run([command, "clock", bench, script], stdout=file, stderr=subprocess.PIPE, preexec_fn=limited,
                                  env=dict(os.environ, PYTHONUNBUFFERED=buffered), check=False)
        with open(path, encoding="utf-8") as file:
            text = file.read()
        yield f"room for {more} bytes{buffered and ', unbuffered'}", (done.returncode, text.startswith(before), text == before), (wanted, True, wanted != 0)


def _errors(folder, command, files):
    """Standard error that is closed, or that nobody reads: the status is what it would be, and never that of an expectation that fails."""
    calls = [(["summary", "nofile.bench", files[1]], 6), (["expect"] + files, 0), (["clock", files[0], "nofile"], 6), (["summary"], 2), (["--help"], 0),
             (["from-yosys", "nofile"], 6), (["summary"] + files, 0), (["expect", "--hazard", "./killed"] + files, 137)]
    for words, status in calls:
        closed = subprocess.run(["sh", "-c", 'exec "$0" "$@" 2>&-', command] + words, cwd=folder, stdout=subprocess.DEVNULL, check=False)
        reader, writer = os.pipe()
        os.close(reader)
        with os.fdopen(writer, "wb") as unread:
            gone = subprocess.run([command] + words, cwd=folder, stdout=subprocess.DEVNULL, stderr=unread, check=False)
        yield f"no standard error, {words}", (closed.returncode, gone.returncode), (status, status)
    module = os.path.join(folder, "sitecustomize.py")
    with open(module, "w", encoding="ascii") as file:
        file.write("import json\njson.dumps = None\n")
    spoilt = subprocess.run([command, "summary", "--json"] + files, env=dict(os.environ, PYTHONPATH=folder), stdout=subprocess.DEVNULL, stderr=subprocess.PIPE, check=False)
    os.remove(module)
    broken = os.path.join(folder, "argparse.py")
    with open(broken, "w", encoding="ascii") as file:
        file.write("raise SyntaxError('an old Python')\n")
    unstarted = subprocess.run([command, "--version"], env=dict(os.environ, PYTHONPATH=folder), stdout=subprocess.DEVNULL, stderr=subprocess.PIPE, check=False)
    os.remove(broken)
    yield "a program that can't be started", (unstarted.returncode, unstarted.stderr), (70, b"hazard-look: it can't be started: SyntaxError: an old Python\n")
    yield "a fault of the program", (spoilt.returncode, spoilt.stderr.decode().startswith("hazard-look: a fault of this program: TypeError"), spoilt.stderr.count(b"\n")), (70, True, 1)


def _interrupted(folder, command, write):
    """A call that is interrupted by the keyboard says nothing more. It listens to the keyboard even if these tests don't, as in the
    background of a shell."""
    slow = write(folder, "slow", "#!/bin/sh\necho >&2 begun\nexec sleep 60\n")
    os.chmod(slow, 0o755)
    words = [command, "start", "--hazard", slow, write(folder, "i.bench", GATE)]
    listen = functools.partial(signal.signal, signal.SIGINT, signal.SIG_DFL)
    with subprocess.Popen(words, stdout=subprocess.PIPE, stderr=subprocess.PIPE, text=True, start_new_session=True, preexec_fn=listen) as running:
        running.stderr.readline()
        os.killpg(running.pid, signal.SIGINT)
        _, errors = running.communicate(timeout=60)
    yield "interrupted", (running.returncode, errors), (130, "")
