"""The job `why`: a short run in which a node makes its hazard, as a waveform, with the paths that race."""
from typing import List, NamedTuple, Optional

from . import cover, runtext, sentence
from .conditions import TooMany, conditions
from .circuit import load, no_node
from .errors import DONE, OUTPUT_FAILED, WRONG_WORDS, Failure
from .history import History
from .lines import spelt
from .network import Network
from .program import file_of
from .proposal import MOST_MENDED, Mender
from .runtext import Run
from .script import NO_CHANGE, must_be_written_out
from .search import Searcher
from .moves import is_clean, kind_of
from .summary import meaning, under
from .waves import LEGEND, drawn, waves

# How many variables and how many steps a waveform shows: between two edges may be many steps, but of an end or a cycle the last ones tell enough.
# Of an end or a cycle with many waves only nodes are drawn.
MOST_WAVES, MANY_WAVES = 40, 16
MOST_STEPS, MOST_LAST = 200, 40


class Shown(NamedTuple):
    """A run that is to be shown: what it shows, its steps up to its cycle, those of the cycle, or None; the lines on the delays that make
    it happen, and these as comparisons, or None if there are none to tell."""

    title: str
    lead: List[list]
    cycle: Optional[List[list]]
    told: List[str]
    comparisons: Optional[list] = None


def run(words, out):
    """Writes why a node has its class in a change."""
    report = words.program.edges(words.netlist, words.script)
    must_be_written_out(words.script)
    circuit = load(words.netlist)
    if words.node not in circuit.nodes:
        raise Failure(no_node(circuit, words.node), WRONG_WORDS)
    change = change_of(words, report)
    row = change.rows[words.node]
    out.write(f"{row.name} in change {change.title()}: {kind_of(row)}, {meaning(row, change.used)}\n")
    for line in under(change):
        out.write(f"  {line}\n")
    if row.kind == "steady":
        return DONE
    for line in cover.told(circuit, change, row):
        out.write(f"  {line}\n")
    network = Network(circuit, is_sorted=True)
    searcher, shown = explained(words, network, change, row)
    if shown:
        _write_shown(words, out, searcher, change, row, shown)
    else:
        out.write(f"  no run that keeps the orders was found in which {row.name} moves so, which is no proof that there is none\n")
    if not is_clean(row) and change.kept:
        out.write("\n" + "".join(f"{line}\n" for line in _orders(words, network, change, row.name)))
    return DONE


def _write_shown(words, out, searcher, change, row, shown):
    """Writes the runs of a node, once `hazard` has accepted them, and keeps them if that is wanted."""
    text = searcher.text.of([Run(searcher.named(one.lead), _named_cycle(searcher, one)) for one in shown])
    words.program.must_accept(words.netlist, text)
    # before the waveforms, of which a reader may want the first lines alone
    if words.save is not None:
        _save(words.save, text.text())
    for one in shown:
        _write(out, searcher, row.name, one)
    if row.kind == "unsettled":
        _write_in_front(out, searcher.network, change.rows, row.name)


def _orders(words, network, change, node):
    """The lines of a script under which a node is clean in a change, each with its sentence."""
    circuit = network.netlist
    if len(circuit.nodes) > MOST_MENDED:
        return [f"no order that makes {node} clean was looked for, as the circuit is large; `hazard-look orders` looks for those of all nodes"]
    mender = Mender(words, circuit, network, change, node)
    found = mender.found()
    if not found:
        return [f"no order of wires was found that makes {node} clean"]
    ends = [_end(change.rows[node], mender.row(block)) for block in found]
    if len(found[0]) > 1:
        return [f"together these make {node} clean{ends[0]}, and none of them can go:"] + [f"  {one.line()}: {one.told()}" for one in found[0]]
    return [f"{one.line()} alone makes {node} clean{end}: {one.told()}" for end, (one,) in zip(ends, found)]


def _end(row, mended):
    """Where an unsettled node ends under orders, which choose the winner of its race: that one need not be the wanted one."""
    return "" if row.kind != "unsettled" else f" (it {'goes to' if mended.moves() else 'keeps'} {mended.end})"


def change_of(words, report):
    """The change that is asked for; or else the first in which the node has no clean edge, or else the first with an edge."""
    found = None
    for change in report.changes:
        if change.stopped:
            if words.change == change.number:
                raise Failure(f"change {change.number} is not analysed: {change.stopped} did not settle before", WRONG_WORDS)
            continue
        if words.change == change.number or words.change is None and not is_clean(change.rows[words.node]):
            return change
        if found is None or not found.rows[words.node].moves():
            found = change
    if words.change is not None or found is None:
        raise Failure(NO_CHANGE if words.change is None else f"{NO_CHANGE} {words.change}", WRONG_WORDS)
    return found


def explained(words, network, change, row):
    """A searcher for the runs of a change, and those that show the class of a node: none if no such run is known that keeps the orders."""
    if not change.kept:
        return None, []
    sorted_run = None if change.used else _run_of_sorted_pins(words, network, change, row)
    searcher = Searcher(network, sorted_run or change.run_lines, change.used)
    moving, node = {network.number[one.name] for one in change.rows.values() if one.moves()}, network.number[row.name]
    if row.kind == "unsettled":
        return searcher, _endless(words, searcher, node, moving)
    wanted, title = _SHOWN.get(row.kind, (1, "its edge; no run with more edges is known, which is no proof that there is none"))
    if not row.least:
        return searcher, []
    found = searcher.edges(node, wanted, moving)
    told, compared = _told(History(searcher.follower, found, moving), node, row.name, wanted) if wanted > 1 else ([], [])
    return searcher, [Shown(title, found, None, told, compared)]


def _run_of_sorted_pins(words, network, change, row):
    """The lines of the run in the report on the same circuit with the pins of each gate in the order of the nodes: the order in which they
    are written then decides nothing. None if they are so, or if that run shows less of a node."""
    if all(list(pins) == sorted(pins) for pins in map(network.sources_of, range(network.inputs, network.nodes))):
        return None
    text = runtext.head(change.run_lines)
    script = f"start{spelt(text.start)}\nchange{spelt(text.target)}\n"
    with file_of(network.sorted_text()) as path:
        found, = words.program.edges_of_text(path, script)
    own = found.rows[row.name]
    if own.kind != row.kind:
        return None
    run, = runtext.read(found.run_lines).runs
    steps = [[network.name_by_sorted_pins(word) for word in step] for step in run.lead]
    return text.of([runtext.Run(steps, None)]).text().splitlines()


def _told(history, node, name, edges):
    """On which delays the edges of a run depend: lines, and comparisons. The last edge comes by itself, as the end is decided."""
    first, passes = origin(history, node) if edges == 2 else (node, ())
    try:
        found = conditions(history, first, list(range(1, edges)))
    except TooMany:
        return [f"{name} {_DOES[edges]} under conditions on too many paths to be told"], None
    if found is None:
        return [f"{name} {_DOES[edges]} if delays are other ones for other edges; no fixed delays were found"], None
    told = sentence.lines(history.network, found, f"{name} {_DOES[edges]}", passes, first) + _essential(history.network, found)
    return told, found + [in_place(one, first, other) for one in found if first in one.early for other in passes]


def in_place(comparison, first, other):
    """A comparison with another variable in place of the one in which a pulse begins."""
    at = comparison.early.index(first)
    return comparison._replace(early=comparison.early[:at] + (other,) + comparison.early[at + 1:])


def _essential(network, comparisons):
    """That a change of an input reaches a gate by its own way after it has come through the feedback, as Unger names it."""
    known = [(early[:-1], late) for early, late in comparisons if not any(map(network.is_input, early + late))]
    looped = network.looped() if known else set()
    for early, late in known:
        if not looped.isdisjoint(early) and looped.isdisjoint(late):
            return ["an essential hazard: an input's own way is slower than its way through the feedback; delay in the feedback takes it away"]
    return []


# how many edges show a class, and what they are
_SHOWN = {"single": (1, "its edge"), "static": (2, "a pulse"), "dynamic": (3, "more than one edge")}
_DOES = {2: "pulses", 3: "makes more than one edge"}


def origin(history, node):
    """The variable in which a pulse begins, which goes on to a node by gates with no other pin that moves; and these, with their wires.
    It is the node itself if the variable depends on what it does."""
    network, passes, first = history.network, [], node
    while True:
        pins = [pin for pin in network.reads(first) if history.may_move(pin)]
        if len(pins) != 1 or network.is_input(pins[0]):
            break
        passes.append(first)
        first = pins[0]
    if passes and any(first in network.cone(pin) for pin in network.reads(first)):
        return node, ()
    return first, tuple(reversed(passes))


def _endless(words, searcher, node, moving):
    """The ends at rest that an unsettled node can have, and a cycle in which it goes on."""
    ends, network = searcher.endings(node), searcher.network
    shown = [Shown(f"it can end at {bit}", ends[bit], [], *_told_of_end(searcher, node, ends[bit], bit, moving)) for bit in sorted(ends)]
    turning = searcher.turning(node)
    if turning is None and searcher.used:
        return shown
    if turning is None:
        printed = runtext.read(words.program.cycle_of(words.netlist, searcher.text)).runs[1]
        turning = [[[network.number[name] for name in step] for step in steps] for steps in (printed.lead, printed.cycle)]
    return shown + [Shown("it can go on for ever", *turning, [])]


def _told_of_end(searcher, node, steps, bit, moving):
    """On which delays it depends that a node ends with a value: lines, and comparisons."""
    history, what = History(searcher.follower, steps, moving), f"{searcher.network.names[node]} ends at {bit}"
    changes = len(history.fires.get(node, ()))
    try:
        found = conditions(history, node, [changes] if changes else [], for_ever=True)
    except TooMany:
        return [f"{what} under conditions on too many paths to be told"], None
    if found is None:
        return [f"{what} after the steps below; no condition on fixed delays that is enough for it was found"], None
    return sentence.lines(searcher.network, found, what), found


def _write_in_front(out, network, rows, node):
    """Names the static nodes on which an unsettled node depends: a loop may have stored the pulse of one of them."""
    cone = network.cone(network.number[node])
    static = [row.name for row in rows.values() if row.kind == "static" and network.number[row.name] in cone]
    if static:
        more = f" and {len(static) - sentence.MOST_NAMED} more" if len(static) > sentence.MOST_NAMED else ""
        named = ", ".join(static[:sentence.MOST_NAMED]) + more
        out.write(f"\nstatic on the way to {node}: {named}; `why` says of these which wires have to be slow\n")


def _named_cycle(searcher, shown):
    return None if shown.cycle is None else searcher.named(shown.cycle)


def _write(out, searcher, name, shown):
    """Writes a run: what it shows, on which delays it depends, the waveform of its last steps."""
    network, follower = searcher.network, searcher.follower
    node, steps = network.number[name], shown.lead + (shown.cycle or [])
    out.write(f"\n{shown.title}, in {len(steps)} steps")
    out.write(f", of which the last {len(shown.cycle)} turn again and again\n" if shown.cycle else "\n")
    for line in shown.told:
        out.write(f"  {line}\n")
    begin = max(0, len(steps) - (MOST_STEPS if shown.cycle is None else MOST_LAST))
    if begin:
        out.write(f"the steps from {begin + 1} on; --save keeps all\n")
    rows = [row for row in waves(follower, steps, _variables(searcher, node, steps), begin) if row.name == name or row.tells()]
    if shown.cycle is not None and len(rows) > MANY_WAVES:
        rows = [row for row in rows if not network.is_wire(network.number[row.name])]
        out.write("wires are not drawn\n")
    out.write("\n".join(drawn(rows, begin)) + "\n")
    out.write(f"{LEGEND}\n")


def _variables(searcher, node, steps):
    """The variables of a waveform: of the node's cone the last ones that change, by their first step; then those that wait at the
    end; and the node."""
    follower, cone = searcher.follower, searcher.network.cone(node)
    kept = follower.kept()
    follower.flip_all(steps)
    waiting = [variable for variable in sorted(cone) if follower.is_unstable(variable)]
    follower.back_to(kept)
    moving = dict.fromkeys(variable for step in steps for variable in step if variable in cone)
    waiting = [variable for variable in waiting if variable not in moving and variable != node]
    moving.pop(node, None)
    kept = max(MOST_WAVES - 1 - len(waiting), MOST_WAVES // 2)
    return (list(moving)[-kept:] + waiting)[:MOST_WAVES - 1] + [node]


def _save(path, text):
    try:
        with open(path, "w", encoding="ascii") as file:
            file.write(text)
    except OSError as fault:
        raise Failure(f"{path}: {fault.strerror}", OUTPUT_FAILED) from fault
