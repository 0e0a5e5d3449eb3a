"""Random circuits with feedback and a change from a state of rest, for the model of tests/model.py."""
import random

KINDS = ("AND", "NAND", "OR", "NOR", "XOR", "XNOR", "NOT", "BUFF")
GATES = "klmnopqrstuvwxyz"


def random_circuits(model, count, seed, gates=(3, 9)):
    """Circuits that rest at their start and are told to change an input or more."""
    chance, found = random.Random(seed), 0
    while found < count:
        inputs = "abcd"[:chance.randint(1, 4)]
        rows = _gates(chance, inputs, GATES[:chance.randint(*gates)])
        start = _rest(chance, model, inputs, rows)
        if start is None:
            continue
        new = "".join(chance.choice("01") for _ in inputs)
        if new != start[:len(inputs)]:
            found += 1
            yield f"random {found}", model.Circuit(inputs, rows, start, new)


def _gates(chance, inputs, names):
    """Gates that read any nodes, the later ones more seldom, so that loops are common and not everywhere."""
    rows = []
    for place, name in enumerate(names):
        kind = chance.choice(KINDS)
        near = inputs + names[:place + 1 if chance.random() < 0.6 else len(names)]
        pins = 1 if kind in ("NOT", "BUFF") else chance.randint(2, 3)
        rows.append((name, kind, "".join(chance.choice(near) for _ in range(pins))))
    return rows


def _rest(chance, model, inputs, rows):
    """The nodes of a stable state that a walk of single steps ends in, or None."""
    nodes = "".join(chance.choice("01") for _ in range(len(inputs) + len(rows)))
    circuit = model.Circuit(inputs, rows, nodes, nodes[:len(inputs)])
    state = circuit.start
    for _ in range(200):
        unstable = [at for at, (bit, asked) in enumerate(zip(state, circuit.excitations(state))) if bit != asked]
        if not unstable:
            return state[:len(circuit.names)]
        state = model.turned(state, [chance.choice(unstable)])
    return None


def multiplier(size):
    """A netlist of an array multiplier: rows of half and full adders."""
    gates, row, outputs = [f"p{i}_{j} = AND(a{i}, b{j})" for i in range(size) for j in range(size)], [f"p0_{j}" for j in range(size)], []
    for i in range(1, size):
        outputs.append(row.pop(0))
        carry, sums = None, []
        for j in range(size):
            pins = [f"p{i}_{j}"] + row[j:j + 1] + ([carry] if carry else [])
            name, carry = _adder(gates, f"{i}_{j}", pins)
            sums.append(name)
        row = sums + ([carry] if carry else [])
    nodes = [f"{letter}{at}" for letter in "ab" for at in range(size)]
    return "".join(f"INPUT({node})\n" for node in nodes) + "".join(f"OUTPUT({node})\n" for node in outputs + row) + "\n".join(gates) + "\n"


def _adder(gates, place, pins):
    """The sum and the carry of one to three pins."""
    if len(pins) == 1:
        return pins[0], None
    pairs = [(one, other) for at, one in enumerate(pins) for other in pins[at + 1:]]
    gates += [f"s{place} = XOR({', '.join(pins)})"] + [f"c{place}_{at} = AND({one}, {other})" for at, (one, other) in enumerate(pairs)]
    if len(pairs) == 1:
        return f"s{place}", f"c{place}_0"
    gates.append(f"c{place} = OR(c{place}_0, c{place}_1, c{place}_2)")
    return f"s{place}", f"c{place}"


def products(size, changes):
    """A script for it, in which four inputs change at a time."""
    chance = random.Random(size)
    values = {f"{letter}{at}": chance.randint(0, 1) for letter in "ab" for at in range(size)}
    lines = ["start" + "".join(f" {name}={bit}" for name, bit in values.items())]
    for _ in range(changes):
        moved = {name: 1 - values[name] for name in chance.sample(sorted(values), 4)}
        values.update(moved)
        lines.append("change" + "".join(f" {name}={bit}" for name, bit in moved.items()))
    return "\n".join(lines) + "\n"
