"""The job `orders`: few assumptions on delays under which the hazards of a script go, each as a sentence of paths.

They are proposed by the rounds of Algorithm A: at a gate with a hazard a wire that can move in an earlier round goes first. What they do
is read from reports of `hazard edges`, and so is what happens without each of them.
"""
import json

from . import script
from .circuit import load
from .errors import DOES_NOT_HOLD, DONE, OUTPUT_FAILED, Failure
from .moves import is_clean, kind_of
from .proposal import Proposal
from .summary import MOST_NAMED, NOT_KEPT, meaning


def run(words, out):
    """Writes the orders for a netlist and a script."""
    report = words.program.edges(words.netlist, words.script)
    statements = script.must_be_written_out(words.script)
    found = Proposal(words, load(words.netlist), statements, report.changes)
    found.search()
    if words.write is not None:
        _save(words, found)
    if words.json:
        out.write(json.dumps(_as_data(words, found), indent=1) + "\n")
    else:
        left = _failures(words, found) if words.fail else [f"change {change.title()}: {NOT_KEPT}" for change in found.after if not change.kept]
        out.write("".join(line + "\n" for line in [*_lines(found), *left, _counted(found)]))
    return DOES_NOT_HOLD if words.fail and any(change.stopped or not change.kept or hazards(change) for change in found.after) else DONE


# What may help a loop that no order settles, as the wires that race need not move.
CUT = "; if a loop has a part that is slower than all else, cut it there: its last gate becomes yn, and y = DFF(yn)"


def hazards(change):
    """The rows of a change that are not clean."""
    return [row for row in change.rows.values() if not is_clean(row)]


def _lines(found):
    """The lines of all that is proposed."""
    lines = []
    for one in found.chosen:
        lines += [f"{one.told()}; {_used(found.uses(one))}", one.line()]
    return lines + (["perhaps not all of these are needed: the search came to its limit"] if found.is_cut else [])


def _used(numbers):
    more = f" and {len(numbers) - MOST_NAMED} more" if len(numbers) > MOST_NAMED else ""
    return f"in change{'' if len(numbers) == 1 else 's'} {', '.join(map(str, numbers[:MOST_NAMED]))}{more}" if numbers else "in no change"


def _counted(found):
    """The last line: the hazards before and after."""
    before, after = _told_of(found.before), _told_of(found.after)
    if not before:
        return "no hazard, so no order is needed"
    named = [f"{row.name} {kind_of(row)} in change {change.number}" for change in found.after for row in hazards(change)]
    more = [f".. and {len(named) - MOST_NAMED} more"] if len(named) > MOST_NAMED else []
    left = (after or "none") + (": " + ", ".join(named[:MOST_NAMED] + more) if named else "") + (CUT if any(map(_is_unsettled, found.after)) else "")
    return f"before: {before}; left: {left}" if found.chosen else f"no order helps; left: {left}"


def _is_unsettled(change):
    return any(row.kind == "unsettled" for row in change.rows.values())


def _told_of(changes):
    """How many hazards some changes have, and how many are not analysed; empty if nothing is wrong."""
    count, stopped = sum(len(hazards(change)) for change in changes), sum(bool(change.stopped) for change in changes)
    parts = [f"{count} hazard{'' if count == 1 else 's'}"] if count else []
    return " and ".join(parts + ([f"{stopped} change{'' if stopped == 1 else 's'} not analysed"] if stopped else []))


def _failures(words, found):
    """A line for each hazard that is left, as compilers write them."""
    line_of = script.lines_of_changes(found.statements)
    for change in found.after:
        front = f"{words.script}:{line_of[change.number]}: change {change.title()}"
        if change.stopped:
            yield f"{front}: not analysed, {change.stopped} did not settle"
        elif not change.kept:
            yield f"{front}: {NOT_KEPT}"
        for row in hazards(change):
            place = found.circuit.place(row.name, words.netlist)
            yield f"{front}: {row.name} {kind_of(row)}: {meaning(row, change.used)}" + (f" ({place})" if place else "")


def _as_data(words, found):
    """What is proposed, and the rows with a hazard before or after, as data."""
    before = {change.number: change for change in found.before}
    rows = []
    for change in found.after:
        old = before[change.number].rows
        for row in change.rows.values():
            if not is_clean(row) or old and not is_clean(old[row.name]):
                rows.append({"change": change.number, "node": row.name, "before": kind_of(old[row.name]) if old else None, "after": kind_of(row)})
    orders = [{"line": one.line(), "first": one.first, "second": one.second, "sentence": one.told(), "changes": found.uses(one)} for one in found.chosen]
    count = lambda changes: {"hazards": sum(len(hazards(change)) for change in changes), "not analysed": [change.number for change in changes if change.stopped]}
    return {"netlist": words.netlist, "script": words.script, "orders": orders, "thinned": not found.is_cut, "calls": found.calls,
            "before": count(found.before), "after": count(found.after), "kept not shown": [change.number for change in found.after if not change.kept], "rows": rows}


def _save(words, found):
    """Writes the script with the lines in it, each with its sentence."""
    lines = [f"{one.line()}  # {one.told()}" for one in found.chosen]
    try:
        with open(words.script, encoding="utf-8", errors="surrogateescape", newline="") as file:
            text = file.read()
        with open(words.write, "w", encoding="utf-8", errors="surrogateescape", newline="") as file:
            file.write(script.with_lines(text, found.place, lines))
    except OSError as fault:
        raise Failure(f"{fault.filename}: {fault.strerror or fault}", OUTPUT_FAILED) from fault
