"""Conditions on delays as sentences, for those who place and route."""

MOST_NAMED = 8
MOST_LINES = 12


def lines(network, comparisons, what, passes=(), last=None):
    """The lines of what happens under some conditions. A pulse that goes on by some variables has to be longer than the delay of each:
    they stand for the last variable of the early path of a comparison."""
    if not comparisons:
        return [f"{what} whatever the delays are"]
    by_late = {}
    for one in comparisons:
        by_late.setdefault(one.late, []).append(one.early)
    if len(comparisons) == 1:
        (late, (early,)), = by_late.items()
        told = [f"{what} if {_slower(network, late)} than {_names(network, early)}: {_sizes(network, late)} against {_sizes(network, early)}"]
    else:
        told = [f"{what} if"]
        for late, earlies in by_late.items():
            told.append(f"  {_slower(network, late)}, {_sizes(network, late)},")
            told += [f"    than {_names(network, early)}, {_sizes(network, early)}" + ("," if early is not earlies[-1] else "") for early in earlies]
            told[-1] += "" if late is list(by_late)[-1] else "; and"
        if len(told) > MOST_LINES:
            told[MOST_LINES:] = [f"    .. and {len(told) - MOST_LINES} lines more"]
    if passes:
        told.append(f"  and also with {'each of ' if len(passes) > 1 else ''}{_names(network, passes)} in place of {network.names[last]}: by {'these' if len(passes) > 1 else 'it'} the pulse goes on")
    return told


def no_later(network, early, late):
    """That one path is no longer than another one."""
    return f"{_names(network, early)} no later than {_names(network, late)}: {_sizes(network, early)} against {_sizes(network, late)}"


def _slower(network, late):
    return f"{_names(network, late)} {'is' if len(late) == 1 else 'are'} slower"


def _names(network, path):
    names = [network.names[variable] for variable in path]
    if len(names) > MOST_NAMED:
        names[MOST_NAMED // 2:-MOST_NAMED // 2] = [".."]
    return ("wire " if len(path) == 1 and network.is_wire(path[0]) else "") + ", ".join(names)


def _sizes(network, path):
    """How many inputs, gates and wires a path has."""
    wires = sum(map(network.is_wire, path))
    inputs = sum(map(network.is_input, path))
    counts = [(inputs, "input"), (len(path) - wires - inputs, "gate"), (wires, "wire")]
    *most, last = [f"{count} {word}{'' if count == 1 else 's'}" for count, word in counts if count]
    return f"{', '.join(most)} and {last}" if most else last
