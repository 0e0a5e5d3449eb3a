"""The job `from-verilog`: a netlist of Verilog in one command, which calls yosys and then does what `from-yosys` does."""
import os
import re
import shutil
import subprocess
import tempfile

from . import from_yosys
from .errors import NETLIST_FAULT, NO_PROGRAM, Failure, read_file, say
from .summary import MOST_NAMED

# What yosys does, with the name of the module behind `-top`: gates as `synth` makes them, or each gate of the source as it is.
_SYNTH = "synth -flatten -noabc {top}; opt_clean; rename -enumerate; write_json {path}"
_GATES = "hierarchy {top}; flatten; proc -noopt; simplemap; opt_clean; rename -enumerate; write_json {path}"
# Writes down the modules of the source, and those that are left once yosys has chosen the one above all.
_CHOICE = "tee -q -o {path}.all ls; hierarchy -auto-top; tee -q -o {path}.kept ls; "


def run(words, out):
    """Writes the netlist of a design to `out`, and the first line of a script to standard error."""
    yosys = shutil.which("yosys")
    if yosys is None:
        raise Failure("yosys is not installed, or not on the path: it reads the Verilog", NO_PROGRAM)
    for path in words.sources:
        read_file(path)
    with tempfile.TemporaryDirectory() as folder:
        path = os.path.join(folder, "design.json")
        top = f"-top {words.top}" if words.top else "-auto-top"
        commands = (("" if words.top else _CHOICE) + (_GATES if words.gates else _SYNTH)).format(top=top, path=path)
        files = [os.path.join(os.curdir, name) if name.startswith("-") else name for name in words.sources]
        done = subprocess.run([yosys, "-q", "-p", commands] + files, stdin=subprocess.DEVNULL, stdout=subprocess.PIPE, stderr=subprocess.STDOUT, check=False)
        if done.returncode != 0 or not os.path.exists(path):
            told = [line for line in done.stdout.decode(errors="replace").splitlines() if "ERROR" in line]
            raise Failure("\n".join(["yosys: " + line for line in told] or [f"yosys ended with status {done.returncode}"]), NETLIST_FAULT)
        if not words.top:
            _tell_left_out(path)
        words.top = None
        return from_yosys.write(read_file(path), words, ", ".join(words.sources), out)


def _tell_left_out(path):
    """Says which modules are no part of the one that yosys has chosen."""
    every, kept = _listed(f"{path}.all"), _listed(f"{path}.kept")
    left = [name for name in every if not any(re.fullmatch(rf"(\$paramod.*\\)?{re.escape(name)}(\\.*)?", one) for one in kept)]
    if left:
        more = [f"{len(left) - MOST_NAMED} more"] if len(left) > MOST_NAMED else []
        say(f"# not in the netlist: {', '.join(left[:MOST_NAMED] + more)}, as no module has all others in it; --top names one")


def _listed(path):
    """The modules that `ls` of yosys has written down; one that is not read yet is called abstract."""
    return [line.strip().removeprefix("$abstract\\") for line in read_file(path).splitlines() if line.startswith("  ")]
