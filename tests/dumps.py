"""A small reader of value change dumps, and what a run text says of the same values. The two share nothing.

Both come to a history: for each time, from 0 on, the bit of every variable by its name.
"""
import re


def history_of_dump(text):
    """The history of a dump whose variables are wires of one bit in one scope: a value stays until it changes."""
    words, scopes, names, history = iter(text.split()), [], {}, []
    for word in words:
        if word in ("$dumpvars", "$end"):
            continue
        if word[0] == "$":
            command = list(iter(lambda: next(words), "$end"))
            if word == "$scope":
                scopes.append(command[1])
            elif word == "$upscope":
                scopes.pop()
            elif word == "$var":
                kind, width, code, name = command
                assert (kind, width, scopes) == ("wire", "1", ["hazard"]) and name[0] == "\\" and code not in names, command
                names[code] = name[1:]
        elif word[0] == "#":
            assert int(word[1:]) == len(history), word
            history.append(dict(history[-1]) if history else {})
        else:
            assert word[0] in "01", word
            history[-1][names[word[1:]]] = int(word[0])
    assert set(history[0]) == set(names.values())
    return history


def sources(netlist):
    """The node that each wire of a netlist reads, by the name of the wire."""
    gates = re.findall(r"^\s*([^\s#=]+)\s*=\s*(\w+)\s*\(([^)]*)\)", netlist, re.MULTILINE)
    return {f"{gate}({pin})": source.strip() for gate, kind, pins in gates if kind != "DFF" for pin, source in enumerate(pins.split(","), 1)}


def history_of_run(netlist, text):
    """The history of the last run of a run text: the state in which all runs begin, and the state after each step."""
    lines = [line.split() for line in text.splitlines()]
    start = next(dict(word.split("=") for word in line[1:]) for line in lines if line[0] == "start")
    state = {name: int(bit) for name, bit in start.items()}
    state.update((wire, state[source]) for wire, source in sources(netlist).items())
    history = [state]
    for line in lines:
        if line[0] == "run":
            history = [state]
        elif line[0] == "step":
            history.append({name: 1 - bit if name in line[1:] else bit for name, bit in history[-1].items()})
    return history
