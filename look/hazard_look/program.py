"""The proved program: where it is found, and how it is called."""
import contextlib
import os
import re
import shutil
import subprocess
import sys
import tempfile

from . import exploration, report
from .errors import DOES_NOT_HOLD, NAME_NOT_READ, NO_PROGRAM, NOT_ACCEPTED, OUTPUT_FAILED, OWN_FAULT, SCRIPT_FAULT, SIGNALLED, Failure, begins_with_mark, read_file
from .lines import lines_of, spelt
from .terminal import Progress

VARIABLE = "HAZARD"
# What helps after a refusal: how its line goes on behind `refused: `, and a remark for the same line.
HINTS = (
    (r"netlist line \d+: construct", "flip-flops, latches and cells come by way of Yosys, `read_blif -sop`, and `hazard-look from-yosys`"),
    (r"netlist line \d+: constant", "let it be an input, which the script never changes; `hazard-look from-yosys` does so"),
    (r"netlist line \d+: unknown kind", "the kinds are AND, NAND, OR, NOR, XOR, XNOR, NOT, BUFF and DFF; any other cell is written as gates"),
    (r"netlist line \d+: pins", "NOT, BUFF and DFF have one pin, and a gate has 256 at most"),
    (r"netlist line \d+: undefined name", "nothing drives it; an input has a line `INPUT(NAME)`, or stands behind `.inputs`"),
    (r"script line \d+: unknown name", "a start assigns nodes of the netlist, a change inputs and flip-flops alone"),
    (r"script line 0: order", "no line is a statement; a script begins with a line `start`, which `hazard-look start` writes"),
    (r"script line \d+: order", "a start comes before all changes, and what is assumed of delays before the first change"),
    (r"script line \d+: form", "a line is `start NAME=BIT ..`, `change NAME=BIT ..`, `order WIRE WIRE` or `ideal WIRE`; a comment begins with #"),
    (r"script line \d+: not two wires", "an order is one of two pins of a gate, as in `order q(2) q(1)`: the second does not change before the first"),
    (r"script line \d+: number", "behind the wires of an order may stand the number of the change that has to wait, 1 to 1000"),
    (r"script line \d+: bit", "a value is 0 or 1, so each `?` of `hazard-look start` is to be filled in"),
    (r"script: no value for ", "the start lists each input; `hazard-look start` writes such a line"),
    (r"start: open ", "the inputs do not decide its value, so the start lists it; `hazard-look start` names all such gates"),
    (r"words;", "this `hazard` is older than `hazard-look`"),
    (r"start: unstable ", "the gate does not have the value of its function, so a listed value is wrong, or the circuit does not rest"),
)


def find(named, home):
    """The program `hazard`: the one that is named by an option or by the environment, or else the first of those beside this
    command, in its repository, and on the path. `home` is the folder of this command."""
    named = named or os.environ.get(VARIABLE)
    if named:
        places = [shutil.which(named)]
    else:
        beside = [os.path.join(home, "hazard"), _built(os.path.join(home, os.pardir))]
        places = [place for place in beside if _is_program(place)] + [shutil.which("hazard")]
    if not places[0]:
        where = f"{named} is no program" if named else "not beside this command, not in its repository, not on the path"
        raise Failure(f"no program `hazard` is found: {where}; ./prove builds it, and --hazard or ${VARIABLE} names another", NO_PROGRAM)
    return Program(places[0])


def _built(root):
    """The program that is built from the present sources of a repository. One that is not proved is said to be so."""
    tool = os.path.join(root, "tools", "built")
    name = ""
    if _is_program(tool):
        name = subprocess.run([tool], stdin=subprocess.DEVNULL, stdout=subprocess.PIPE, text=True).stdout.strip()
    if name == "unproved" and sys.stderr:
        print("hazard-look: nothing proves what `hazard` says here; ./prove builds the proved program", file=sys.stderr)
    return os.path.join(root, "built", name) if name else ""


def _is_program(path):
    return os.path.isfile(path) and os.access(path, os.X_OK)


class Program:
    """The program `hazard` at a path. Its refusals come as failures with its own line and status."""

    def __init__(self, path):
        self.path = path

    def edges(self, netlist, script):
        """The report of two files. Its changes are read while the program writes them."""
        with self._understood():
            found = report.read(self.lines(["edges", netlist, script]))
        return found._replace(changes=self._to_the_end(self._watched(found.changes, "change"), script))

    def explore(self, netlist, script):
        """The exploration of two files. Its states are read while the program writes them."""
        with self._understood():
            found = exploration.read(self.lines(["explore", netlist, script]))
        return found._replace(rows=self._watched(found.rows, "state"))

    @staticmethod
    def _to_the_end(changes, script):
        """Some changes, after which a report without all changes of the script is a failure."""
        count = 0
        for count, change in enumerate(changes, 1):
            yield change
        wanted = sum(line.tokens[:1] != [] and line.tokens[0].lower() == "change" for line in lines_of(read_file(script)))
        if count != wanted:
            raise Failure(f"the report of `hazard` ends before its end: it has {count} of {wanted} changes", OWN_FAULT)

    def _watched(self, rows, what):
        """The rows of a report, with a line that says how far it is."""
        progress = Progress(f"hazard-look: {what}")
        try:
            with self._understood():
                for number, row in enumerate(rows, 1):
                    yield row
                    progress.at(number)
        finally:
            progress.end()

    @contextlib.contextmanager
    def _understood(self):
        """Fails if what is read is no report, as another program with this name may write."""
        try:
            yield
        except report.STRANGE as fault:
            raise Failure(f"{self.path} does not write a report, so it is not `hazard`", NO_PROGRAM) from fault

    def edges_of_text(self, netlist, script):
        """The changes of the report on a netlist in a file and a script in a text, read while the program writes them."""
        with file_of(script) as path:
            yield from self.edges(netlist, path).changes

    def cycle_of(self, netlist, text):
        """The lines of the runs in a report of `hazard analyse` on the change of a run text: in the second one all nodes that it leaves
        unsettled go on and on."""
        taken = []
        with file_of(f"start{spelt(text.start)}\nchange{spelt(text.target)}\n") as path:
            for line in self.lines(["analyse", netlist, path]):
                if taken or line == "runs 2":
                    taken.append(line)
        return taken

    def must_read(self, netlist):
        """Fails with the program's refusal unless it reads a netlist. A script that is none is only looked at after that."""
        with file_of("") as path:
            try:
                self.edges(netlist, path)
            except Failure as failure:
                if failure.status != SCRIPT_FAULT:
                    raise

    def replay(self, netlist, run_text):
        """Whether the program accepts each run of a run text, and the line that it answers."""
        with file_of(run_text.text()) as path, self._running(["replay", netlist, path]) as running:
            line = running.stdout.read().strip()
        if running.returncode < 0:
            raise _ended(running.returncode)
        return running.returncode == 0, line

    def must_accept(self, netlist, run_text):
        """Fails unless the program accepts each run: what is shown afterwards has been checked."""
        accepted, line = self.replay(netlist, run_text)
        if not accepted:
            raise Failure(f"a run that was to be shown is not accepted by `hazard replay`: {line}", NOT_ACCEPTED)

    def lines(self, words):
        """The lines that the program writes. A refusal, or an end before the end, is a failure."""
        with self._running(words) as running:
            for number, line in enumerate(running.stdout):
                if number == 0 and line.startswith("refused: "):
                    raise Failure(f"hazard: {line.strip()}{_hint(line, words)}", _status(running.wait()))
                yield line.rstrip("\n")
            if running.wait() != 0:
                raise _ended(running.returncode)

    def _running(self, words):
        """The program, started with some words."""
        try:
            return subprocess.Popen([self.path] + words, stdin=subprocess.DEVNULL, stdout=subprocess.PIPE, text=True)
        except OSError as fault:
            raise Failure(f"{self.path} can't be started: {fault.strerror or fault}", NO_PROGRAM) from fault


def _ended(code):
    """The failure for an end of `hazard` that is none of success."""
    ended = f"with status {code}" if code > 0 else f"by signal {-code}"
    what = "; the name of a file is no text" if code == NAME_NOT_READ else ""
    return Failure(f"hazard ended {ended}{what}", _status(code))


def _status(code):
    """The status for an end of `hazard` that is none of success: never the one that says that an expectation does not hold."""
    if code < 0:
        return SIGNALLED - code
    return OWN_FAULT if code == DOES_NOT_HOLD else code


def _hint(line, words):
    """What helps after the line of a refusal of some words, with the mark that goes before it."""
    refusal, netlist = line.removeprefix("refused: "), words[1]
    text = re.match("(netlist|script) line ([0-9]+): ", refusal)
    if text and text[2] == "1" and begins_with_mark(words[1 if text[1] == "netlist" else 2]):
        return "; the file begins with a byte order mark: save it as UTF-8 without one"
    if text and text[1] == "netlist" and _is_line(netlist, int(text[2]), r"\s*(start|change)\s+\S+\s*=\s*[01?]"):
        return "; that is a line of a script, and the netlist comes before the script"
    if words[0] == "explore" and text and text[1] == "script" and _is_line(words[2], int(text[2]), r"\s*(order|ideal)\s"):
        return "; this `hazard` is older than `hazard-look`: its tables are of all runs"
    if words[0] == "explore" and text and refusal.rstrip().endswith(": order") and _is_line(words[2], int(text[2]), r"\s*start\s"):
        return "; a table begins at one start"
    if text and refusal.rstrip().endswith(": unknown name") and _is_line(words[2], int(text[2]), r"\s*(order|ideal)\s"):
        return "; a wire is a gate with the number of its pin, as `q(2)`"
    if refusal.startswith("netlist ") and netlist.lower().endswith((".v", ".sv")):
        return "; Verilog goes by way of Yosys: `hazard-look from-verilog` makes a netlist of it"
    if re.match(r"netlist line \d+: form", refusal) and not netlist.lower().endswith((".blif", ".json")):
        return "; a line is `INPUT(a)`, `OUTPUT(z)` or `z = AND(a, b)`; a comment begins with #"
    if refusal.startswith("netlist ") and netlist.lower().endswith(".json"):
        return "; `hazard-look from-yosys` makes a netlist of what `write_json` of Yosys writes"
    return next((f"; {hint}" for form, hint in HINTS if re.match(form, refusal)), "")


def _is_line(path, number, form):
    """Whether a line of a file begins with a form, in letters of any case."""
    lines = read_file(path).split("\n", number)
    return number <= len(lines) and bool(re.match(form, lines[number - 1], re.I))


@contextlib.contextmanager
def file_of(text):
    """The path of a file with a text, which is there as long as the program needs it."""
    with contextlib.ExitStack() as stack:
        try:
            path = os.path.join(stack.enter_context(tempfile.TemporaryDirectory()), "text")
            with open(path, "w", encoding="utf-8") as file:
                file.write(text)
        except OSError as fault:
            raise Failure(f"no file can be made for `hazard` to read: {fault.strerror or fault}", OUTPUT_FAILED) from fault
        yield path
