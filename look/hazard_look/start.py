"""The job `start`: the first line of a script for a netlist, with `?` for each bit that only its designer knows."""
import re

from .circuit import load
from .errors import DONE, NETLIST_FAULT, Failure, read_file
from .lines import lines_of

# Names that synthesis gives to inner nodes; a designer knows the others.
_INNER = re.compile(r"[_$]|.*\\|(new_)?n\d+_?$")
_ALWAYS = re.compile(r"# always ([01])\s*$")


def run(words, out):
    """Writes the line for a netlist that `hazard` accepts."""
    words.program.must_read(words.netlist)
    circuit = load(words.netlist)
    known = {} if words.netlist.lower().endswith(".blif") else _always(read_file(words.netlist))
    if not circuit.nodes:
        raise Failure(f"{words.netlist}: the netlist has no node, so a start has nothing to list", NETLIST_FAULT)
    out.write(line(circuit, known, ()) + "\n")
    return DONE


def _always(text):
    """The inputs that are constants, as the comments that `from-yosys` writes say."""
    found = ((row.tokens, _ALWAYS.match(row.comment)) for row in lines_of(text))
    return {tokens[2]: bit[1] for tokens, bit in found if bit and len(tokens) == 4 and tokens[0].upper() == "INPUT"}


def line(circuit, known, preferred):
    """The line, with `?` for each value that is not known."""
    return "start" + "".join(f" {name}={known.get(name, '?')}" for name in nodes_of(circuit, preferred))


def nodes_of(circuit, preferred=()):
    """What a start lists: each input and flip-flop, and a gate of each loop, from which all other gates follow. Of a loop a gate that is
    preferred is listed if there is one, else one with a name of the designer's, else the one that most gates read."""
    readers = circuit.readers()
    return circuit.start_nodes(lambda name: (name not in preferred, bool(_INNER.match(name)), -len(readers[name])))
