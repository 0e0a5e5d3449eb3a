"""The definitions of the model as plain programs, straight from their words, and rows that were worked by hand.

Nothing here is quick. The ternary extension goes through all lists of bits that refine the pins, an algorithm is the
list of its whole states, and reached states are walked through one by one. A state is a text of a letter for each
variable: 0, 1, and X in a ternary state.
"""
import copy
import random
from itertools import combinations, product

GATES = {
    "AND": lambda bits: "0" not in bits,
    "NAND": lambda bits: "0" in bits,
    "OR": lambda bits: "1" in bits,
    "NOR": lambda bits: "1" not in bits,
    "XOR": lambda bits: bits.count("1") % 2 == 1,
    "XNOR": lambda bits: bits.count("1") % 2 == 0,
    "NOT": lambda bits: bits == "0",
    "BUFF": lambda bits: bits == "1",
}
# Small circuits: inputs, gates, the nodes of a stable start, and the new input; and, if there are flip-flops, the nodes that these
# read. Flip-flops are the last inputs.
SMALL = {
    "latch": ("rs", [("q", "NOR", "rb"), ("b", "NOR", "sq")], "1100", "00"),
    "stays": ("rs", [("q", "NOR", "rb"), ("b", "NOR", "sq")], "0110", "00"),
    "inverter": ("e", [("y", "NAND", "ey")], "01", "1"),
    "xor": ("x", [("y", "XOR", "xx")], "00", "1"),
    "hazard": ("x", [("n", "NOT", "x"), ("y", "AND", "xn")], "010", "1"),
    "waiting": ("e", [("y", "NAND", "ey"), ("d", "BUFF", "e")], "010", "1"),
    "holding": ("a", [("y", "OR", "ay")], "00", "1"),
    "pulse": ("x", [("p", "AND", "xn"), ("n", "NOT", "x"), ("y", "OR", "py")], "0010", "1"),
    "multiplexer": ("sxy", [("n", "NOT", "s"), ("a", "AND", "sx"), ("b", "AND", "ny"), ("z", "OR", "ab")], "1110101", "011"),
    "c17": (
        "abcfg",
        [("p", "NAND", "ac"), ("q", "NAND", "cf"), ("r", "NAND", "bq"), ("s", "NAND", "qg"), ("t", "NAND", "pr"), ("u", "NAND", "rs")],
        "00000111100",
        "10100",
    ),
    "c17 one": (
        "abcfg",
        [("p", "NAND", "ac"), ("q", "NAND", "cf"), ("r", "NAND", "bq"), ("s", "NAND", "qg"), ("t", "NAND", "pr"), ("u", "NAND", "rs")],
        "00000111100",
        "10000",
    ),
    "ring": ("x", [("p", "AND", "xn"), ("n", "NOT", "x"), ("u", "OR", "pw"), ("v", "BUFF", "u"), ("w", "BUFF", "v")], "001000", "1"),
    "sticky": ("aq", [("d", "AND", "aq"), ("y", "NOT", "q")], "0001", "10", "d"),
    "toggle": ("eq", [("d", "XOR", "eq")], "101", "01", "d"),
    "shift": ("apqr", [("d", "NAND", "ap")], "00001", "1000", "qra"),
    "closed": ("pq", [("y", "OR", "pq")], "000", "11", "qp"),
}
# By hand: the rounds, results and ranks of Algorithm A, then those of B with its settling rounds. Nodes, then wires.
PASSES = {
    "xor": ((4, "XX XX", "13 22"), (4, "10 11", "13 22")),
    "holding": ((5, "XX XX", "13 24"), (5, "11 11", "13 24")),
    "inverter": ((5, "XX XX", "13 24"), (3, "1X 1X", "10 20")),
    "latch": ((5, "XXXX XXXX", "1133 2424"), (3, "00XX 0X0X", "1100 2020")),
    "stays": ((3, "0X10 00X1", "0100 0020"), (3, "0010 0001", "0100 0020")),
    "pulse": ((7, "XXXX XXXXX", "1335 24246"), (7, "100X 1010X", "1530 24260")),
    "multiplexer": ((7, "X11XXXX XX1X1XX", "1003355 2204046"), (8, "0111011 0011101", "1003357 2204046")),
    "c17": (
        (6, "X0X00X111X0 XXX00110X111", "10100300050 222000004000"),
        (6, "10100011110 111001100111", "10100300050 222000004000"),
    ),
    "c17 one": (
        (3, "X0000111100 X00001101111", "10000000000 200000000000"),
        (3, "10000111100 100001101111", "10000000000 200000000000"),
    ),
}
# By hand: the steps of spread runs.
SPREAD_RUNS = {
    "latch": ["r s", "q(1)", "q", "b(1)", "b", "q(2) b(2)"],
    "xor": ["x", "y(1)", "y", "y(2)"],
    "inverter": ["e", "y(1)", "y", "y(2)"],
    "pulse": ["x", "p(1)", "p", "n(1)", "n", "y(1)", "y", "p(2) y(2)"],
    "multiplexer": ["s", "n(1)", "n", "a(1)", "a", "b(1)", "b", "z(1)", "z", "z(2)"],
    "ring": ["x", "p(1)", "p", "n(1)", "n", "u(1)", "u", "v(1)", "v", "w(1)", "w", "p(2) u(2)"],
    "c17": ["a c", "p(1) p(2)", "p", "t(1)", "t", "q(1)"],
    "c17 one": ["a", "p(1)"],
}
# By hand: the states that runs reach in the network of two wires of one source, and those that may persist.
REACHED = {"0000", "1000", "1010", "1001", "1011", "1110", "1101", "1111"}
OUTCOMES = {"1011"}
# By hand: ternary extensions.
EXTENSIONS = [("AND", "0X1", "0"), ("AND", "1X1", "X"), ("OR", "0X1", "1"), ("XOR", "XX", "X"), ("XOR", "101", "0"), ("NOR", "X1", "0"), ("NOT", "X", "X")]


def join(bits):
    """The join of a set of bits that is not empty."""
    return "X" if len(bits) == 2 else next(iter(bits))


def join_of(value, other):
    """The value where two ternary values agree, else X."""
    return value if value == other else "X"


def extension(kind, pins):
    """The join of the gate function over all lists of bits that refine the pins."""
    refining = product(*("01" if pin == "X" else pin for pin in pins))
    return join({str(int(GATES[kind]("".join(bits)))) for bits in refining})


def other(bit):
    return "1" if bit == "0" else "0"


class Circuit:
    """A circuit with one letter for a name; its variables are the inputs, the gates, and the wires into the gates."""

    def __init__(self, inputs, gates, start, new, data=""):
        self.inputs, self.gates, self.new = inputs, gates, new
        self.primary = inputs[:len(inputs) - len(data)]
        self.cuts = list(zip(inputs[len(self.primary):], data))
        self.names = inputs + "".join(name for name, _, _ in gates)
        self.wires = "".join(sources for _, _, sources in gates)
        self.start = self.expanded(start)

    def expanded(self, nodes):
        """The state in which each node has a given bit and each wire its source's."""
        return nodes + "".join(nodes[self.names.index(source)] for source in self.wires)

    def netlist(self):
        lines = [f"INPUT({name})" for name in self.primary]
        lines += [f"{name} = DFF({node})" for name, node in self.cuts]
        lines += [f"{name} = {kind}({', '.join(sources)})" for name, kind, sources in self.gates]
        return "\n".join(lines) + "\n"

    def script(self, listed=None):
        """A script that lists some nodes, all of them if none are named, and then gives the new input."""
        listed = dict(zip(self.names, self.start)) if listed is None else listed
        assigned = lambda pairs: "".join(f" {name}={bit}" for name, bit in pairs)
        return "start" + assigned(listed.items()) + "\nchange" + assigned(zip(self.inputs, self.new)) + "\n"

    def excitations(self, state, new=None):
        """What drives each variable asks for: a place of the external input, the gate's own wires, the wire's source."""
        asked, at = list(self.new if new is None else new), len(self.names)
        for _, kind, sources in self.gates:
            asked.append(extension(kind, state[at:at + len(sources)]))
            at += len(sources)
        return "".join(asked) + "".join(state[self.names.index(source)] for source in self.wires)

    def is_stable(self, state, new=None):
        return self.excitations(state, new) == state

    def stable_starts(self):
        """Each state that is stable under its own inputs, by its nodes."""
        for bits in product("01", repeat=len(self.names)):
            nodes = "".join(bits)
            if self.is_stable(self.expanded(nodes), nodes[:len(self.inputs)]):
                yield nodes

    def algorithm_a(self):
        """The states from the start on, up to the first that equals the one before."""
        return until_equal(self.start, lambda state: "".join(map(join_of, state, self.excitations(state))))

    def algorithm_b(self):
        return until_equal(self.algorithm_a()[-1], self.excitations)

    def passes(self):
        """Rounds, result and ranks of Algorithm A; rounds, result and settling rounds of B."""
        a, b = self.algorithm_a(), self.algorithm_b()
        ranks = [first(a, i, lambda value: value == "X") if value == "X" else 0 for i, value in enumerate(a[-1])]
        settled = [first(b, i, lambda value: value != "X") if b[0][i] == "X" != value else 0 for i, value in enumerate(b[-1])]
        return (len(a) - 1, a[-1], ranks), (len(b) - 1, b[-1], settled)

    def steps(self, state):
        """The states after one step: any variables that are unstable may change at once, and at least one does."""
        asked = self.excitations(state)
        choices = product(*(bit if bit == other else bit + other for bit, other in zip(state, asked)))
        return {"".join(choice) for choice in choices} - {state}

    def reached(self, states=None):
        """The states that runs from some states reach, from the start if none are named."""
        waiting = [self.start] if states is None else list(states)
        seen = set(waiting)
        while waiting:
            fresh = self.steps(waiting.pop()) - seen
            seen |= fresh
            waiting += fresh
        return seen

    def outcomes(self):
        """The states that runs reach from a nontransient cycle.

        The states that reach each other are one cycle. If a part of it is a nontransient cycle, the whole is."""
        onward = {state: self.reached([state]) for state in self.reached()}
        lasting = set()
        for state, later in onward.items():
            cycle = {other for other in later if state in onward[other]}
            if (len(cycle) > 1 or self.is_stable(state)) and not self.waits(cycle):
                lasting |= later
        return lasting

    def waits(self, cycle):
        """Whether some variable has one value in all states of a cycle and is unstable in all of them."""
        asked = [(state, self.excitations(state)) for state in cycle]
        return any(
            len({state[i] for state in cycle}) == 1 and all(state[i] != wanted[i] for state, wanted in asked)
            for i in range(len(self.start))
        )

    def letters(self, states):
        """The join over a set of states, for each node."""
        return "".join(join({state[i] for state in states}) for i in range(len(self.names)))

    def spread_run(self):
        """The steps of the spread run: the inputs, each gate's wires and then the gate by rank, the wires that are left."""
        (_, a, ranks), _ = self.passes()
        steps, at = [[i for i, bit in enumerate(self.new) if bit != self.start[i]]], len(self.names)
        wires = {}
        for number, (_, kind, sources) in enumerate(self.gates, len(self.inputs)):
            wires[number] = (kind, range(at, at + len(sources)))
            at += len(sources)
        for gate in sorted((number for number in wires if ranks[number]), key=lambda number: (ranks[number], number)):
            kind, own = wires[gate]
            free = [wire for wire in own if 0 < ranks[wire] < ranks[gate]]
            steps += [self.changed_pins(kind, own, free, other(self.start[gate])), [gate]]
        done = {i for step in steps for i in step}
        steps.append([i for i in range(len(self.names), len(self.start)) if a[i] == "X" and i not in done])
        return [step for step in steps if step]

    def changed_pins(self, kind, own, free, wanted):
        """The fewest free wires that give a gate a value when they change, and among these the first by their numbers."""
        for count in range(len(free) + 1):
            for changed in combinations(free, count):
                if extension(kind, [other(self.start[wire]) if wire in changed else self.start[wire] for wire in own]) == wanted:
                    return list(changed)
        raise ValueError("no pattern")

    def changes(self, steps):
        """How often each variable changes in steps, each of which is a step of the model, or None."""
        state, count = self.start, [0] * len(self.start)
        for flips in steps:
            after = turned(state, flips)
            if len(set(flips)) != len(flips) or after not in self.steps(state):
                return None
            state = after
            for i in flips:
                count[i] += 1
        return count

    def most_changes(self, limit):
        """How often each variable changes at most along a run, up to a limit: by all states that runs reach, with all numbers of changes."""
        steps = {state: self.steps(state) for state in self.reached()}
        return [self.most_of(i, steps, limit) for i in range(len(self.start))]

    def most_of(self, i, steps, limit):
        """How often a variable changes at most, by the steps from each state."""
        best, waiting = {self.start: 0}, [self.start]
        while waiting:
            state = waiting.pop()
            for after in steps[state]:
                count = min(limit, best[state] + (after[i] != state[i]))
                if count > best.get(after, -1):
                    best[after] = count
                    waiting.append(after)
        return max(best.values())

    def reads(self):
        """What each variable reads: an input nothing, a gate its wires, a wire its source."""
        read, at = [[] for _ in self.inputs], len(self.names)
        for _, _, sources in self.gates:
            read.append(list(range(at, at + len(sources))))
            at += len(sources)
        return read + [[self.names.index(source)] for source in self.wires]

    def feedback_free(self):
        """The variables from which no way back ends in a cycle, each after those that it reads."""
        read, order = self.reads(), []
        while True:
            fresh = [var for var in range(len(read)) if var not in order and all(source in order for source in read[var])]
            if not fresh:
                return order
            order += fresh

    def feedback_cycles(self):
        """The loops of the choices: a variable that is not feedback-free chooses the first such one that it reads."""
        read, free = self.reads(), self.feedback_free()
        chosen = {var: next(source for source in read[var] if source not in free) for var in range(len(read)) if var not in free}
        loops = set()
        for var in chosen:
            way = [var]
            while chosen[way[-1]] not in way:
                way.append(chosen[way[-1]])
            loop = way[way.index(chosen[way[-1]]):][::-1]
            least = loop.index(min(loop))
            loops.add(tuple(loop[least:] + loop[:least]))
        return sorted(loops)

    def words(self):
        """The word of each feedback-free variable: its letters from the first to the last."""
        read, words = self.reads(), {}
        for var in self.feedback_free():
            if var < len(self.inputs):
                words[var] = self.start[var] + ("" if self.new[var] == self.start[var] else self.new[var])
            elif var < len(self.names):
                words[var] = longest_walk(self.gates[var - len(self.inputs)][1], [words[wire] for wire in read[var]])
            else:
                words[var] = words[read[var][0]]
        return words

    def classes(self):
        """The number of changes of each variable, and its class, as the report spells them."""
        (_, a, _), (_, b, _) = self.passes()
        words = self.words()
        for var, bit in enumerate(self.start):
            count = len(words[var]) - 1 if var in words else None
            spelt = "-" if count is None else str(count)
            yield spelt, class_of(a[var], b[var], bit, count)

    def races(self, states):
        """How many of some states have two unstable variables or more."""
        return sum(len(self.unstable(state)) >= 2 for state in states)

    def head(self, runs):
        """The report up to the block of its runs, whose races are counted in runs that are given."""
        (rounds_a, a, _), (rounds_b, b, _) = self.passes()
        names = self.variables()
        sizes = (len(self.inputs), len(self.gates), len(self.wires), len(self.start))
        lines = ["netlist inputs %d gates %d wires %d variables %d" % sizes]
        lines += ["feedback " + " ".join(names[var] for var in loop) for loop in self.feedback_cycles()]
        lines += ["start" + "".join(f" {name}={bit}" for name, bit in zip(self.names, self.start))]
        lines += ["change 1" + "".join(f" {name}={bit}" for name, bit in zip(self.inputs, self.new))]
        lines += [f"rounds A {rounds_a} B {rounds_b}"]
        for (spelt, kind), name, *values in list(zip(self.classes(), names, self.start, a, b))[:len(self.names)]:
            lines += ["%s start %s A %s B %s changes %s %s" % (name, *values, spelt, kind)]
        (spread, _), (settle, cycle) = runs
        settling = self.states(self.start, settle)
        turning = self.states(settling[-1], cycle)
        counts = (self.races(self.states(self.start, spread)), self.races(settling), self.races(turning[:-1] or turning))
        return "\n".join(lines + ["races spread %d settle %d cycle %d" % counts]) + "\n"

    def states(self, state, steps):
        """A state and those after each step from it."""
        states = [state]
        for step in steps:
            states.append(turned(states[-1], step))
        return states

    def runs_of(self, lines):
        """The runs of a block of a report: pairs of a lead and a cycle, which may be None."""
        runs, names = [], self.variables()
        for word, *spelt in map(str.split, lines):
            if word == "run":
                runs.append(([], None))
            elif word == "cycle":
                runs[-1] = (runs[-1][0], [])
            elif word == "step":
                lead, cycle = runs[-1]
                (lead if cycle is None else cycle).append([names.index(name) for name in spelt])
        return runs

    def forced(self, listed):
        """The bit of each node that listed values force, each from those that are there already."""
        pairs, before = dict(listed), None
        while pairs != before:
            before = dict(pairs)
            for name, node in self.cuts:
                if name not in listed and node in before:
                    pairs[name] = before[node]
            for name, kind, sources in self.gates:
                bits = extension(kind, "".join(before.get(source, "X") for source in sources))
                if name not in listed and bits != "X":
                    pairs[name] = bits
        return pairs

    def start_line(self, listed):
        """The line of the report that a listing leads to."""
        pairs = self.forced(listed)
        for name in self.names:
            if name not in pairs:
                return f"refused: start: open {name}"
        state = self.expanded("".join(pairs[name] for name in self.names))
        asked = self.excitations(state, state[:len(self.inputs)])
        for name, bit, wanted in zip(self.names, state, asked):
            if bit != wanted:
                return f"refused: start: unstable {name}"
        return "start" + "".join(f" {name}={pairs[name]}" for name in self.names)

    def pattern_lines(self, held, patterns):
        """The text of patterns from these held gates, with every node as an output."""
        lines, counts = [], {"open": 0, "unstable": 0, "unsettled": 0}
        for number, (before, after) in enumerate(patterns, 1):
            words = self.start_line(dict(zip(self.inputs, before), **held)).split()
            if words[0] == "refused:":
                lines.append(f"{number} {words[2]} {words[3]}")
                counts[words[2]] += 1
                continue
            nodes = "".join(word[-1] for word in words[1:])
            (_, a, _), (_, b, _) = Circuit(self.inputs, self.gates, nodes, after).passes()
            lines.append(f"{number}" + "".join(f" {name}={a[i]}{b[i]}" for i, name in enumerate(self.names)))
            counts["unsettled"] += "X" in b
        lines.append(f"patterns {len(patterns)}" + "".join(f" {kind} {count}" for kind, count in counts.items()))
        return "\n".join(lines) + "\n"

    def moved(self, state, burst):
        """The same circuit, whose change is a burst from a state."""
        new = list(state[:len(self.inputs)])
        for i, bit in burst:
            new[i] = bit
        changed = copy.copy(self)
        changed.start, changed.new = state, "".join(new)
        return changed

    def single_bursts(self):
        """Each input alone, to 0 and to 1."""
        return [[(i, bit)] for i in range(len(self.inputs)) for bit in "01"]

    def exploration(self, bursts, most=65536):
        """The states to which bursts lead from the start, breadth first, and their transitions: from, burst, and where it ends. That is a
        number, "more" for a state that there was no room for, or the first variable that is X."""
        states, transitions = [self.start], []
        for number, state in enumerate(states, 1):
            for burst in bursts:
                if not burst or any(state[i] == bit for i, bit in burst):
                    continue
                end = self.moved(state, burst).algorithm_b()[-1]
                if "X" in end:
                    transitions.append((number, burst, self.variables()[end.index("X")]))
                    continue
                if end not in states and len(states) < most:
                    states.append(end)
                transitions.append((number, burst, states.index(end) + 1 if end in states else "more"))
        return states, transitions

    def exploration_lines(self, bursts):
        """The lines of the job `explore` behind its head, without the numbers of classes: those of states and of transitions."""
        states, transitions = self.exploration(bursts)
        for number, state in enumerate(states, 1):
            yield f"state {number}" + "".join(f" {name}={bit}" for name, bit in zip(self.names, state))
            for source, burst, end in transitions:
                if source == number:
                    words = "".join(f" {self.names[i]}={bit}" for i, bit in burst)
                    yield f"{number} to {end}{words}" if isinstance(end, int) else f"{number} unsettled{words} {end}"

    def unknown_start(self, held):
        """The start of which nothing is known but the held gates."""
        return "".join(held.get(name, "X") for name in self.names) + "X" * len(self.wires)

    def settled(self, first, new):
        """What a ternary state settles to under an input: Algorithm A leads from it to a result, and Algorithm B from there."""
        spread = until_equal(first, lambda state: "".join(map(join_of, state, self.excitations(state, new))))[-1]
        return until_equal(spread, lambda state: self.excitations(state, new))[-1]

    def reset_lines(self, held, patterns):
        """The text of what patterns bring about from the unknown start, with every node as an output."""
        lines, unknown = [], 0
        for number, (before, after) in enumerate(patterns, 1):
            a = self.settled(self.unknown_start(held), before)
            b = self.settled(a, after)
            lines.append(f"{number}" + "".join(f" {name}={a[i]}{b[i]}" for i, name in enumerate(self.names)))
            unknown += "X" in b
        return "\n".join(lines + [f"patterns {len(patterns)} unknown {unknown}"]) + "\n"

    def outcomes_of_all(self, new):
        """The outcome states from each state under a new input."""
        here = Circuit(self.inputs, self.gates, "0" * len(self.names), new)
        known, onward = {}, {}
        here.steps = lambda state: known.setdefault(state, Circuit.steps(here, state)) if state not in known else known[state]
        for bits in product("01", repeat=len(self.start)):
            onward["".join(bits)] = here.reached(["".join(bits)])
        lasting = {}
        for state, later in onward.items():
            cycle = {other for other in later if state in onward[other]}
            lasting[state] = (len(cycle) > 1 or here.is_stable(state)) and not here.waits(cycle)
        return {state: set().union(*(onward[other] for other in later if lasting[other])) for state, later in onward.items()}

    def listings(self):
        """Each way to list all inputs that are no flip-flops, and some flip-flops and gates."""
        for bits in product("01", repeat=len(self.primary)):
            for held in product(("", "0", "1"), repeat=len(self.names) - len(self.primary)):
                yield {name: bit for name, bit in zip(self.names, bits + held) if bit}

    def variables(self):
        """The names of the variables, as run texts spell them; pins are counted from 1."""
        return list(self.names) + [f"{name}({pin + 1})" for name, _, sources in self.gates for pin in range(len(sources))]

    def run_text(self, runs):
        """A run text from the start under the new input: runs are pairs of a lead and a cycle, which may be None."""
        names, wires = self.variables(), sum(len(sources) for _, _, sources in self.gates)
        lines = ["runs 2", f"net {len(self.inputs)} {len(self.gates)} {wires}"]
        lines += ["start" + "".join(f" {name}={bit}" for name, bit in zip(self.names, self.start))]
        lines += ["input" + "".join(f" {name}={bit}" for name, bit in zip(self.inputs, self.new))]
        spelt = lambda steps: ["".join(["step"] + [f" {names[var]}" for var in step]) for step in steps]
        for lead, cycle in runs:
            lines += ["run"] + spelt(lead) + ([] if cycle is None else ["cycle"] + spelt(cycle))
        return "\n".join(lines + ["end"]) + "\n"

    def replay(self, runs):
        """Whether the runs are accepted, and the line that says so."""
        for number, (lead, cycle) in enumerate(runs, 1):
            why = self.refused(lead, cycle)
            if why:
                return 1, f"no: run {number} {why}\n"
        steps = sum(len(lead) + len(cycle or []) for lead, cycle in runs)
        return 0, f"yes: runs {len(runs)} steps {steps} cycles {sum(cycle is not None for _, cycle in runs)}\n"

    def refused(self, lead, cycle):
        """Why a run is refused, if it is: its first step that is none, or its cycle."""
        states = [self.start]
        for number, step in enumerate(lead + (cycle or []), 1):
            why = self.refused_step(states[-1], step)
            if why:
                return f"step {number}: {why}"
            states.append(turned(states[-1], step))
        return None if cycle is None else self.refused_cycle(states[len(lead):])

    def refused_step(self, state, step):
        if not step:
            return "empty"
        asked, names = self.excitations(state), self.variables()
        for why, has in (("repeated", lambda var: step.count(var) > 1), ("stable", lambda var: state[var] == asked[var])):
            if any(map(has, step)):
                return f"{why} {names[min(filter(has, step))]}"
        return None

    def refused_cycle(self, states):
        """Why these states, from the one where a cycle begins to the one where it ends, are no nontransient cycle."""
        asked, names = list(map(self.excitations, states)), self.variables()
        differs = lambda var: states[0][var] != states[-1][var]
        waits = lambda var: all(state[var] == states[0][var] != wanted[var] for state, wanted in zip(states, asked))
        kinds = (("differs", differs), ("not stable" if len(states) == 1 else "transient", waits))
        found = [f"cycle: {why} {names[var]}" for why, has in kinds for var in range(len(names)) if has(var)]
        return found[0] if found else None

    def attempts(self, settle, cycle):
        """The runs of the search for two outcomes, in their order. From each of the first 64 states of a cycle at the end of a settle
        run there are two: in each turn the least unstable variable flips, or the greatest."""
        for count in range(min(len(cycle), 64)):
            front = settle + cycle[:count]
            for pick in (min, max):
                state, turns = self.states(self.start, front)[-1], []
                while self.unstable(state) and len(turns) < 2 * len(self.start):
                    turns.append([pick(self.unstable(state))])
                    state = turned(state, turns[-1])
                yield front + turns

    def split(self, settle, cycle):
        """The first attempt that ends in a stable state, and the first later one that ends in another."""
        found = {}
        for lead in self.attempts(settle, cycle):
            end = self.states(self.start, lead)[-1]
            if self.is_stable(end) and len(found) < 2:
                found.setdefault(end, lead)
        return found

    def wanderings(self, chance, count):
        """Runs that wander through the states: most of their steps are steps, some are not."""
        for _ in range(count):
            yield [self.wandering(chance) for _ in range(chance.randint(1, 3))]

    def wandering(self, chance):
        state, lead = self.start, []
        for _ in range(chance.randint(0, 12)):
            state = self.wander(chance, state, lead)
        if chance.random() < 0.3:
            return lead, None
        cycle, begun = [], state
        lazy = chance.choice([None] + self.unstable(state))
        for _ in range(chance.choice((0, 4, 40))):
            state = self.wander(chance, state, cycle, lazy)
            if state == begun and chance.random() < 0.7:
                break
        return lead, cycle

    def unstable(self, state):
        return [var for var, (bit, wanted) in enumerate(zip(state, self.excitations(state))) if bit != wanted]

    def wander(self, chance, state, steps, lazy=None):
        """Adds a step to some, in which a lazy variable stays, and answers the state after it. One in sixty is no step."""
        unstable = [var for var in self.unstable(state) if var != lazy]
        if chance.random() < 1 / 60:
            steps.append([chance.randrange(len(state)) for _ in range(chance.randint(0, 4))])
            return state
        if not unstable:
            return state
        steps.append(chance.sample(unstable, chance.randint(1, len(unstable))))
        return turned(state, steps[-1])


def turned(state, step):
    """The state after a step."""
    return "".join("10"[int(bit)] if var in step else bit for var, bit in enumerate(state))


def longest_walk(kind, words):
    """The letters of a gate along the walk through its pins' words on which it changes most often."""
    best = {}
    for at in product(*(range(len(word)) for word in words)):
        letter = extension(kind, "".join(word[place] for word, place in zip(words, at)))
        before = [tuple(place - moved for place, moved in zip(at, move)) for move in product((0, 1), repeat=len(words)) if any(move)]
        walks = [best[place] for place in before if place in best] or [""]
        best[at] = max((walk if walk.endswith(letter) else walk + letter for walk in walks), key=len)
    return best[tuple(len(word) - 1 for word in words)]


def class_of(a, b, start, count):
    """The class of a variable of some values of A, B and the start, of so many changes, or None."""
    if a != "X":
        return "steady"
    if b == "X":
        return "unsettled"
    if b == start:
        return "static"
    return "change" if count is None else "single" if count == 1 else "maybe-dynamic"


def edge_class(start, end, least, most):
    """The class of a variable that changes so often along a run, and at most so often along every run, or None."""
    if most == 0:
        return "steady"
    if end == "X":
        return "unsettled"
    if end == start:
        return "static" if least >= 2 else "maybe-static"
    return "single" if most == 1 else "dynamic" if least >= 3 else "maybe-dynamic"


def until_equal(state, after):
    states = [state]
    while len(states) < 2 or states[-1] != states[-2]:
        states.append(after(states[-1]))
    return states


def first(states, i, has):
    """The first round in which variable i has a value with a property."""
    return next(number for number, state in enumerate(states) if has(state[i]))


def hand_rows():
    """The plain programs against the rows: name, what was found, what was wanted."""
    for kind, pins, value in EXTENSIONS:
        yield f"extension of {kind} on {pins}", extension(kind, pins), value
    for name, (a, b) in PASSES.items():
        wanted = tuple((rounds, result.replace(" ", ""), [int(digit) for digit in noted.replace(" ", "")]) for rounds, result, noted in (a, b))
        yield f"passes of {name}", Circuit(*SMALL[name]).passes(), wanted
    for name, steps in SPREAD_RUNS.items():
        circuit = Circuit(*SMALL[name])
        yield f"spread run of {name}", circuit.run_text([(circuit.spread_run(), None)]).splitlines()[5:-1], [f"step {step}" for step in steps]
    two_wires = Circuit(*SMALL["xor"])
    yield "reached of two wires", two_wires.reached(), REACHED
    yield "outcomes of two wires", two_wires.outcomes(), OUTCOMES


def small_changes():
    """The small circuits with their changes, and those of at most nine variables from each stable start to each input."""
    for name, (inputs, gates, start, new, *data) in SMALL.items():
        circuit = Circuit(inputs, gates, start, new, *data)
        yield name, circuit
        if len(circuit.start) <= 9 and name != "stays":
            for nodes in circuit.stable_starts():
                for bits in product("01", repeat=len(inputs)):
                    new = "".join(bits)
                    yield f"{name} from {nodes} to {new}", Circuit(inputs, gates, nodes, new, *data)


def random_circuits(count):
    """Circuits of one to three inputs and up to five gates, most with feedback, at one of their stable starts."""
    chance = random.Random(4)
    while count:
        inputs = "abc"[:chance.randint(1, 3)]
        names = inputs + "uvwyz"[:chance.randint(1, 5)]
        gates = []
        for name in names[len(inputs):]:
            kind = chance.choice(list(GATES))
            pins = 1 if kind in ("NOT", "BUFF") else chance.randint(2, 3)
            gates.append((name, kind, "".join(chance.choice(names) for _ in range(pins))))
        circuit = Circuit(inputs, gates, "0" * len(names), "0" * len(inputs))
        starts = list(circuit.stable_starts())
        if starts:
            count -= 1
            circuit.start = circuit.expanded(chance.choice(starts))
            yield circuit
