"""A file with a netlist, in the format that its name tells."""
import difflib

from . import blif, netlist
from .errors import read_file


def load(path):
    """The netlist of a file that `hazard` has accepted: in BLIF if its name ends in `.blif`, in any letter case."""
    is_blif = path.lower().endswith(".blif")
    return (blif if is_blif else netlist).read(read_file(path))


# Among more nodes no name is looked for that is like another one.
_MOST_COMPARED = 20_000


def no_node(circuit, *names):
    """That some words name no node. Of one that a design has for a node, the netlist's own name is said too; of another one the node
    with the name that is most like it."""
    return f"no node is named {', '.join(_spelt(circuit, name) for name in names)}"


def _spelt(circuit, name):
    others = circuit.other_names
    if name in others:
        return f"{name} (it is {others[name]})"
    like = [node for node in circuit.nodes if node.lower() == name.lower()]
    if not like and len(circuit.nodes) <= _MOST_COMPARED:
        like = difflib.get_close_matches(name, circuit.nodes, 1)
    return (name or "``") + (f" (is it {like[0]}?)" if like else "")
