"""The words of the command line: the jobs, their options, and their help."""
import argparse
import os
import re
import sys
import traceback

from . import VERSION, clock, expect, from_verilog, from_yosys, orders, page, program, start, summary, table, terminal, testbench, why
from .errors import INTERRUPTED, OUTPUT_FAILED, OWN_FAULT, WRONG_WORDS, Failure, must_be_plain, say

ABOUT = """The companion of `hazard`: it shows what a circuit does, asks why, and keeps it as a test. Each value and class
that it prints is read from a report of `hazard edges`; each run that it shows stands in a report, or `hazard replay`
has accepted it."""
STATUSES = """status: 0 done; 1 an expectation does not hold or could not be checked (expect), there is a hazard (summary, table
or orders, if it is to fail), or a change does not settle (clock); 2 wrong words, or an expectation that can't be read, or none; 3 to 10 as `hazard`
has them, whose refusal is passed on; 70 a fault of this program, as a run that `hazard replay` does not accept; 127 no
program `hazard` is found, or no yosys; 128 and more: `hazard` or this program was ended by a signal"""


def main(words, home):
    """Does the job of some words and answers the status. Failures are lines on standard error. `home` is the folder of the
    command, beside which `hazard` is looked for."""
    if sys.stdout is None:
        return _failed("standard output is closed", OUTPUT_FAILED)
    try:
        return _answered(words, home)
    except KeyboardInterrupt:
        return INTERRUPTED
    except OSError as fault:
        # What Python would flush at the end goes nowhere. If the reader has gone, nobody has to be told.
        os.dup2(os.open(os.devnull, os.O_WRONLY), sys.stdout.fileno())
        gone = isinstance(fault, BrokenPipeError)
        return OUTPUT_FAILED if gone else _failed(f"standard output can't be written: {fault.strerror or fault}", OUTPUT_FAILED)
    except Exception as fault:  # pylint: disable=broad-except
        # Python itself would end with 1, which says that an expectation does not hold.
        place = traceback.extract_tb(fault.__traceback__)[-1]
        return _failed(f"a fault of this program: {type(fault).__name__}: {fault}, in {place.filename}:{place.lineno}", OWN_FAULT)


def _answered(words, home):
    """Does a job, and answers the status; what goes wrong with standard output is left to the caller."""
    if not words:
        say(parser().format_help().rstrip())
        return WRONG_WORDS
    try:
        asked = parser().parse_args(words)
        if "hazard" in asked:
            asked.program = program.find(asked.hazard, home)
        for name in {"netlist", "script"}.intersection(vars(asked)):
            path = getattr(asked, name)
            must_be_plain(path)
            # `hazard` takes a word with this beginning for an option
            setattr(asked, name, os.path.join(os.curdir, path) if path.startswith("-") else path)
        status = asked.job(asked, terminal.painted(sys.stdout))
    except SystemExit as end:
        # The parser has written a help or what is wrong with the words.
        status = end.code
    except Failure as failure:
        sys.stdout.flush()
        return _failed(failure, failure.status)
    sys.stdout.flush()
    return status


def _failed(lines, status):
    """Writes why a job is not done, and answers the status."""
    for line in str(lines).split("\n"):
        say(f"hazard-look: {line}")
    return status


def parser():
    """The parser of the words, with the help of each job."""
    top = argparse.ArgumentParser("hazard-look", description=ABOUT, epilog=STATUSES, allow_abbrev=False)
    top.add_argument("--version", action="version", version=f"hazard-look {VERSION}", help="say which version this is")
    jobs = top.add_subparsers(title="jobs", metavar="JOB", required=True)
    _netlist_job(jobs, "start", start.run, "the first line of a script: what it has to list, with `?` for each bit")
    job = _job(jobs, "summary", summary.run, "a line for each change, and what each hazard means")
    job.add_argument("--only", metavar="NODE,..", help="speak of these nodes alone")
    job.add_argument("--outputs", action="store_true", help="speak of the outputs alone")
    job.add_argument("--roots", action="store_true", help="leave out the echoes: nodes that read the hazard of another one of these nodes")
    job.add_argument("--all", action="store_true", help="speak of all nodes, the clean ones as well")
    job.add_argument("--fail", action="store_true", help="write each hazard as FILE:LINE: .., and end with 1 if there is one")
    job.add_argument("--json", action="store_true", help="write it as JSON")
    job = _job(jobs, "expect", expect.run, "check the comments `#expect ..` of a script")
    form = job.add_mutually_exclusive_group()
    form.add_argument("--json", action="store_true", help="write it as JSON")
    form.add_argument("--junit", action="store_true", help="write it as JUnit's XML, for a CI that shows tests")
    job = _job(jobs, "why", why.run, "a short run in which a node makes its hazard")
    _node(job)
    job.add_argument("--save", metavar="FILE", help="keep the run as a run text for `hazard replay`")
    job = _job(jobs, "orders", orders.run, "few orders of wires under which the hazards go: what the layout has to keep")
    job.add_argument("--write", metavar="FILE", help="write the script with these orders in it")
    job.add_argument("--fail", action="store_true", help="write each hazard that is left as FILE:LINE: .., and end with 1 if there is one")
    job.add_argument("--json", action="store_true", help="write it as JSON")
    _node(_job(jobs, "testbench", testbench.run, "Verilog with delays under which a node makes its hazard"))
    _job(jobs, "page", page.run, "one self-contained page: the circuit, its hazards, a player of the runs")
    job = _job(jobs, "table", table.run, "the flow table: each state that the changes reach, in any order, by each of them")
    job.add_argument("--all", action="store_true", help="write all states and all changes that are not clean")
    form = job.add_mutually_exclusive_group()
    form.add_argument("--fail", action="store_true", help="write each change that is not clean as FILE:LINE: .., and end with 1 if there is one")
    form.add_argument("--page", action="store_true", help="write a page with the states as a graph, each change of which opens")
    _job(jobs, "clock", clock.run, "a script whose lines `#clock ck` are written out as changes")
    job = _plain_job(jobs, "from-yosys", from_yosys.run, "a netlist from what yosys' `write_json` gives after `synth`")
    job.add_argument("design", metavar="DESIGN.json", help="the design, flattened and of simple gates")
    _design(job)
    job = _plain_job(jobs, "from-verilog", from_verilog.run, "the same from Verilog in one command, which calls yosys")
    job.add_argument("sources", metavar="FILE.v", nargs="+", help="the source text")
    job.add_argument("--gates", action="store_true", help="keep each gate of the source: no `synth`")
    _design(job)
    return top


def _node(job):
    """The words of a job that speaks of a node in a change."""
    job.add_argument("node", metavar="NODE", help="an input, a flip-flop or a gate")
    job.add_argument("change", metavar="CHANGE", nargs="?", type=_number, help="its number; else the first that matters to the node")


def _number(word):
    """A number in digits of ASCII, which has a sign at most."""
    if not re.fullmatch("-?[0-9]{1,9}", word):
        raise argparse.ArgumentTypeError(f"{word} is no number")
    return int(word)


def _design(job):
    """The options of a job that translates a design."""
    job.add_argument("--top", metavar="MODULE", help="the module to take, if the design has several")
    job.add_argument("--join", action="store_true", help="make gates one again that yosys split: a NAND, or three pins")


def _job(jobs, name, run, about):
    """A job that asks `hazard` about a netlist and a script."""
    job = _netlist_job(jobs, name, run, about)
    job.add_argument("script", metavar="SCRIPT", help="the start and the changes")
    return job


def _netlist_job(jobs, name, run, about):
    """A job that asks `hazard` about a netlist."""
    job = _plain_job(jobs, name, run, about)
    job.add_argument("--hazard", metavar="PROGRAM", help="the program to ask, else $HAZARD, else the one that is found")
    job.add_argument("netlist", metavar="NETLIST", help="gates in .bench, or covers in BLIF if the name ends in .blif")
    return job


def _plain_job(jobs, name, run, about):
    """A job with its help."""
    job = jobs.add_parser(name, help=about, description=about[0].upper() + about[1:] + ".", epilog=STATUSES,
                          allow_abbrev=False)
    job.set_defaults(job=run)
    return job
