"""Assumptions of time as plain programs that follow the definitions: orders of two wires of a gate, and wires without delay.

An order is (first, second, nth): the second wire does not make its nth change before the first has changed. What a run has done with
an order is a mark: how often the second wire has changed, or DONE once the first has.
"""
import math
import random
import re
from itertools import combinations, product

import model
from calls import call, write

DONE = "done"
# the most unstable variables of which all sets are steps; of more, one or two change in a step, or all do
MOST_SETS = 6
# the most places in which runs are looked for
MOST_PLACES = 3000
# the most changes that are counted
MOST_CHANGES = 5
# the most variables of circuits whose runs are looked for, and the most positions of a gate's wires of which the program has a table
MOST_VARIABLES = 11
MOST_POSITIONS = 512
SCRIPTS = 400


def flips_from(unstable):
    """The sets of variables that change in a step from a state with these unstable ones."""
    sizes = range(1, len(unstable) + 1) if len(unstable) <= MOST_SETS else (1, 2, len(unstable))
    return [flips for size in sizes for flips in combinations(unstable, size)]


def marks_after(orders, marks, flips):
    """The marks of orders after a step, or None if it breaks one."""
    after = []
    for (first, second, nth), mark in zip(orders, marks):
        if mark != DONE:
            mark = DONE if first in flips else mark + (second in flips)
        if mark == nth:
            return None
        after.append(mark)
    return tuple(after)


class KeptRuns:
    """The runs of a change that keep some orders, by places: a place is a state with the marks of the orders. If a wire is ideal, each
    step from a state in which it is unstable changes it."""

    def __init__(self, circuit, orders, ideal=None):
        self.circuit, self.orders, self.ideal = circuit, orders, ideal
        self.unstable, self.steps, self.breaks = {}, {}, False
        self.begin = (circuit.start, (0,) * len(orders))
        self.explore()

    def unstable_in(self, state):
        if state not in self.unstable:
            self.unstable[state] = self.circuit.unstable(state)
        return self.unstable[state]

    def explore(self):
        """Finds all places and the steps from each, unless there are too many."""
        waiting, self.steps[self.begin] = [self.begin], []
        while waiting and len(self.steps) <= MOST_PLACES:
            place = waiting.pop()
            self.steps[place] = list(self.after(place))
            for later in self.steps[place]:
                if later not in self.steps:
                    self.steps[later] = []
                    waiting.append(later)
        self.whole = not waiting

    def after(self, place):
        """The places after one step."""
        state, marks = place
        unstable = self.unstable_in(state)
        for flips in flips_from(unstable):
            if self.ideal in unstable and self.ideal not in flips:
                continue
            later = marks_after(self.orders, marks, flips)
            if later is None:
                self.breaks = True
            else:
                yield model.turned(state, flips), later

    def most_of(self, i):
        """How often a variable changes at most along a run, up to a limit."""
        best, waiting = {self.begin: 0}, [self.begin]
        while waiting:
            place = waiting.pop()
            for later in self.steps[place]:
                count = min(MOST_CHANGES, best[place] + (later[0][i] != place[0][i]))
                if count > best.get(later, -1):
                    best[later] = count
                    waiting.append(later)
        return max(best.values())

    def outcomes(self):
        """The states to which a run leads that goes once round a nontransient cycle, and onward."""
        self.find_parts()
        ends, seen = set(), set()
        for place in self.steps:
            ends |= self.round_ends(place)
        waiting = list(ends)
        while waiting:
            place = waiting.pop()
            if place not in seen:
                seen.add(place)
                waiting += self.steps[place]
        return {state for state, _ in seen}

    def find_parts(self):
        """The sets of places that reach each other: to which ones steps lead from each, and the pairs of a variable and a value that it
        takes in each, with both values if it is stable somewhere."""
        self.parts, self.part_of = components(self.steps)
        self.later = [{self.part_of[later] for place in part for later in self.steps[place]} - {number} for number, part in enumerate(self.parts)]
        self.taken = [frozenset(pair for state, _ in part for pair in self.taken_in(state)) for part in self.parts]
        self.places = {}
        for place in self.steps:
            self.places.setdefault(place[0], set()).add(place)

    def taken_in(self, state):
        unstable = self.unstable_in(state)
        for i, bit in enumerate(state):
            yield i, bit
            if i not in unstable:
                yield i, model.other(bit)

    def round_ends(self, place):
        """The places to which a nontransient cycle from a place leads: their state is that of the place. Round the cycle no variable
        waits: it takes both values, or is stable somewhere."""
        part = self.part_of[place]
        ends, seen, waiting = set(), {(part, self.taken[part])}, [(part, self.taken[part])]
        while waiting:
            part, taken = waiting.pop()
            if len(taken) == 2 * len(place[0]):
                ends |= {later for later in self.places[place[0]] if self.part_of[later] == part}
            if len(self.places[place[0]]) > 1:
                fresh = {(later, taken | self.taken[later]) for later in self.later[part]} - seen
                seen |= fresh
                waiting += fresh
        return ends


def components(steps):
    """The sets of places that reach each other, and of each place the number of its set."""
    found, part_of, least, number, stack, parts = {}, {}, {}, 0, [], []
    for root in steps:
        if root in found:
            continue
        way = [(root, iter(steps[root]))]
        found[root] = least[root] = number = number + 1
        stack.append(root)
        while way:
            place, later = way[-1]
            fresh = next(later, None)
            if fresh is None:
                way.pop()
                if way:
                    least[way[-1][0]] = min(least[way[-1][0]], least[place])
                if least[place] == found[place]:
                    cut = stack.index(place)
                    for inside in stack[cut:]:
                        part_of[inside] = len(parts)
                    parts.append(stack[cut:])
                    del stack[cut:]
            elif fresh not in found:
                found[fresh] = least[fresh] = number = number + 1
                stack.append(fresh)
                way.append((fresh, iter(steps[fresh])))
            elif fresh not in part_of:
                least[place] = min(least[place], found[fresh])
    return parts, part_of


class Change:
    """What a report says of a change: the orders that it uses, a row for each variable, and the lines behind them. Of a change that is
    not made only the variable that stops it is there."""

    def __init__(self, line):
        _, number, *self.assigned = line.split()
        self.number, self.lines, self.stopped = int(number), [], None
        self.used, self.rows, self.kept, self.counts, self.run = [], [], None, None, None

    def add(self, line):
        """Takes in the next line."""
        self.lines.append(line)
        words = line.split()
        if self.run is not None:
            self.run.append(line)
        elif words[0] == "used":
            self.used.append((words[1], words[2], int(words[3])))
        elif words[0] == "kept":
            self.kept = " ".join(words[1:])
        elif words[0] == "orders":
            self.counts = line
        elif words[0] == "stopped":
            self.stopped = words[1]
        elif words[0] == "runs":
            self.run = [line]
        else:
            self.rows.append(row_of(line))

    def text(self):
        """The lines behind the first one, but for those of orders."""
        return [line for line in self.lines if line.split()[0] not in ("used", "kept", "orders")]

    def column(self, place):
        return [row[place] for row in self.rows]


def row_of(line):
    """A row: the name, the values at the start and at the end, both bounds, of which the upper may be None, and the class."""
    name, start, end, least, dots, most, kind = re.fullmatch(r"(\S+) start ([01]) end ([01X]) edges (\d+)(\.\.)?(\d+)? (\S+)", line).groups()
    return name, start, end, int(least), int(most) if most else None if dots else int(least), kind


def parts_of(text):
    """The lines of a report before the first start, and each start with its changes."""
    head, parts, inside = [], [], False
    for line in text.splitlines():
        word = line.split()[0]
        if word == "start" and not inside:
            parts.append((line, []))
        elif word == "change" and not inside:
            parts[-1][1].append(Change(line))
        elif parts:
            parts[-1][1][-1].add(line)
            inside = word == "runs" or inside and word != "end"
        else:
            head.append(line)
    return head, parts


class Script:
    """Assumptions, parts, and options of the call. A part is a start with changes, each of which assigns inputs; an assumption is the words
    of its statement."""

    def __init__(self, assumptions, parts, options=()):
        self.assumptions, self.parts, self.options = assumptions, parts, ["--show", "all", *options]
        self.cap = int(options[1]) if options else math.inf

    def text(self, circuit, assumptions=None):
        """The text, some of whose assumptions stand before the first start."""
        stated = self.assumptions if assumptions is None else assumptions
        front = len(stated) // 2
        spelt = [" ".join(words) + "\n" for words in stated]
        starts = ["start" + "".join(f" {name}={bit}" for name, bit in zip(circuit.names, state)) + "\n" for state, _ in self.parts]
        changes = ["".join("change" + "".join(f" {circuit.names[i]}={bit}" for i, bit in burst) + "\n" for burst in bursts) for _, bursts in self.parts]
        return "".join(spelt[:front]) + starts[0] + "".join(spelt[front:]) + changes[0] + "".join(map("".join, zip(starts[1:], changes[1:])))


def random_scripts(count, seed):
    """Small circuits, most with feedback, and scripts with orders and ideal wires from their stable starts."""
    chance = random.Random(seed)
    while count:
        circuit = random_circuit(chance)
        starts = list(circuit.stable_starts())
        parts = [random_part(chance, circuit, starts) for _ in range(chance.choice((1, 1, 2)) if starts else 0)]
        pairs = list(pairs_of(circuit, *parts[0])) if parts else []
        if pairs:
            count -= 1
            circuit.start = parts[0][0]
            yield circuit, Script(random_assumptions(chance, circuit, pairs), parts, ("--cap", str(chance.randint(1, 3))) if count % 5 == 0 else ())


def random_part(chance, circuit, starts):
    return circuit.expanded(chance.choice(starts)), [random_burst(chance, circuit) for _ in range(chance.choice((1, 1, 2, 3)))]


def pairs_of(circuit, state, bursts):
    """The pairs of wires of one gate; five times those of which both move in the first change."""
    a = circuit.moved(state, bursts[0]).algorithm_a()[-1]
    for wires in circuit.reads()[len(circuit.inputs):len(circuit.names)]:
        for pair in combinations(wires, 2):
            yield from [pair] * (5 if {a[wire] for wire in pair} == {"X"} else 1)


def random_circuit(chance):
    """A circuit of at most eleven variables."""
    while True:
        inputs = "abc"[:chance.randint(1, 3)]
        names = inputs + "uvwy"[:chance.randint(1, 4)]
        gates = []
        for name in names[len(inputs):]:
            kind = chance.choice(list(model.GATES))
            pins = 1 if kind in ("NOT", "BUFF") else chance.choice((2, 2, 3))
            gates.append((name, kind, "".join(chance.choice(names) for _ in range(pins))))
        if len(names) + sum(len(sources) for _, _, sources in gates) <= MOST_VARIABLES:
            return model.Circuit(inputs, gates, "0" * len(names), "0" * len(inputs))


def busy_scripts(count, seed):
    """Circuits without feedback in which most gates are parities, so that there are many changes, and scripts with orders of later ones."""
    chance = random.Random(seed)
    for number in range(count):
        names, gates = "ab", []
        for name in "pqrsuvw"[:chance.randint(3, 7)]:
            kind = chance.choice(("XOR", "XOR", "XNOR", "BUFF", "NOT", "AND", "OR"))
            gates.append((name, kind, "".join(chance.choice(names[-4:]) for _ in range(1 if kind in ("BUFF", "NOT") else chance.choice((2, 2, 3))))))
            names += name
        circuit = model.Circuit("ab", gates, "0" * len(names), "00")
        nodes = circuit.forced({"a": "0", "b": chance.choice("01")})
        circuit.start = circuit.expanded("".join(nodes[name] for name in names))
        pairs = [pair for wires in circuit.reads()[2:len(names)] for pair in combinations(wires, 2)]
        if pairs:
            yield circuit, Script(busy_orders(chance, circuit, pairs), [(circuit.start, [[(0, "1")], [(0, "0"), (1, "1")]])], ("--cap", "9") if number % 4 == 0 else ())


def busy_orders(chance, circuit, pairs):
    names = circuit.variables()
    found = [["order", *(names[wire] for wire in chance.sample(chance.choice(pairs), 2)), str(chance.randint(1, 9))] for _ in range(chance.randint(1, 5))]
    return [words for place, words in enumerate(found) if words not in found[:place]]


def random_burst(chance, circuit):
    return [(i, chance.choice("01")) for i in sorted(chance.sample(range(len(circuit.inputs)), chance.randint(1, len(circuit.inputs))))]


def random_assumptions(chance, circuit, pairs):
    """One to five orders, some of them in a circle, and some ideal wires, each stated once."""
    names, found = circuit.variables(), []
    for _ in range(chance.randint(1, 5)):
        first, second = chance.sample(chance.choice(pairs), 2)
        nth = chance.choice((1, 1, 1, 2, 3))
        found.append(["order", names[first], names[second]] + ([str(nth)] if nth > 1 else []))
        if chance.random() < 0.2:
            found.append(["order", names[second], names[first]])
    if chance.random() < 0.4:
        found += [["ideal", names[wire]] for wire in chance.sample(range(len(circuit.names), len(names)), chance.randint(1, 2))]
    chance.shuffle(found)
    return [words for place, words in enumerate(found) if words not in found[:place]][:5]


def ways_of(circuit, most):
    """In how many ways the wires of each wire's gate can stand, if variables change at most so often."""
    found = {}
    for wires in circuit.reads()[len(circuit.inputs):len(circuit.names)]:
        ways = math.prod(math.inf if most[wire] is None else most[wire] + 1 for wire in wires)
        found.update(dict.fromkeys(wires, ways))
    return found


def split_used(assumptions, used, b, start, names, ways):
    """The used orders that follow from each ideal wire, and how many orders are idle, if these are the orders that a change uses; else None.
    A given order is used if its first wire comes to the other value by Algorithm B, unless the wires can stand in too many ways."""
    if not assumptions:
        return None if used else ([], 0)
    (keyword, wire, *more), *later = assumptions
    if keyword == "ideal":
        own = [order for order in used if order[0] == wire]
        for count in range(len(own) + 1):
            rest = split_used(later, used[count:], b, start, names, ways) if used[:count] == own[:count] else None
            if rest:
                return [(wire, order) for order in used[:count]] + rest[0], rest[1]
        return None
    i = names.index(wire)
    if b[i] != model.other(start[i]):
        rest = split_used(later, used, b, start, names, ways)
        return rest and (rest[0], rest[1] + 1)
    if ways[i] > MOST_POSITIONS:
        return split_used(later, used, b, start, names, ways)
    given = (wire, more[0], int(more[1]) if more[1:] else 1)
    return split_used(later, used[1:], b, start, names, ways) if used[:1] == [given] else None


def most_of_walks(kind, letters, counts, orders):
    """How often a gate changes at most while its wires advance through their changes, several at once or one, and keep the orders of its pins.
    The wires begin with these letters, and change so often at most."""
    value = lambda at: model.GATES[kind]("".join(model.other(letter) if place % 2 else letter for letter, place in zip(letters, at)))
    moves = [move for move in product((0, 1), repeat=len(counts)) if any(move)]
    best = {(0,) * len(counts): 0}
    for at in product(*(range(count + 1) for count in counts)):
        if all(at[second] < nth or at[first] for first, second, nth in orders):
            before = [tuple(place - moved for place, moved in zip(at, move)) for move in moves]
            walks = [best[was] + (value(was) != value(at)) for was in before if was in best]
            best.update({at: max(walks)} if walks else {})
    return max(best.values())


def narrowed(circuit, most):
    """What variables come to that change at most so often: the value at the start if they don't change, else X; then each X takes its excitation."""
    first = "".join(bit if count == 0 else "X" for bit, count in zip(circuit.start, most))
    narrow = lambda state: "".join(asked if value == "X" else value for value, asked in zip(state, circuit.excitations(state)))
    return model.until_equal(first, narrow)[-1]


def next_start(circuit, ends):
    """The state in which the next change starts, and the variable that stops it: one of the two is None."""
    names = circuit.variables()
    if "X" in ends:
        return None, names[ends.index("X")]
    unstable = circuit.unstable(ends)
    return (None, names[unstable[0]]) if unstable else (ends, None)


def run(program, words, folder):
    done = call(program, words, folder)
    return done.returncode, done.stdout.decode()


class Tally:
    """What is counted over all changes: bounds that are the true numbers, ends that are the true ones, runs that are shown."""

    def __init__(self):
        self.bounds = self.exact = self.ends = self.least = self.ordered = self.rests = self.kept = self.large = 0
        self.counts_bounds = True

    def checks(self):
        """Nearly all is as it can be at best; how much, is said if it is not."""
        yield "changes under orders of which all runs were looked at", self.ordered - self.large >= SCRIPTS / 2, True
        for name, found, best in (("bounds", self.exact, self.bounds), ("ends", self.least, self.ends), ("runs that come to rest", self.kept, self.rests)):
            yield f"{name} under orders, {found} of {best}", found >= 0.95 * best, True


def is_kept_run(circuit, orders, steps):
    """Whether steps are a run that keeps orders and comes to rest."""
    marks, counts = (0,) * len(orders), circuit.changes(steps)
    for flips in steps:
        marks = marks and marks_after(orders, marks, flips)
    return counts is not None and marks is not None and not circuit.unstable(circuit.states(circuit.start, steps)[-1])


def row_checks(name, circuit, change):
    """The rows of a change: names, values at the start, classes, and the counts of the run that is shown."""
    names = circuit.variables()
    yield f"variables of {name}", (change.column(0), change.column(1)), (names, list(circuit.start))
    yield f"classes of {name}", change.column(5), [model.edge_class(*row[1:5]) for row in change.rows]
    if change.kept == "not shown":
        yield f"no run of {name}", (change.run, change.column(3)), (None, [0] * len(names))
    else:
        steps = circuit.runs_of(change.run)[0][0]
        yield f"run text of {name}", "\n".join(change.run) + "\n", circuit.run_text([(steps, None)])
        yield f"counts of {name}", change.column(3), circuit.changes(steps)


def enumerated(name, circuit, orders, change, tally):
    """The bounds and the ends of a change under orders against all runs that keep them."""
    runs = KeptRuns(circuit, orders)
    if not runs.whole:
        tally.large += 1
        return
    true = [runs.most_of(i) for i in range(len(circuit.start))]
    most = [MOST_CHANGES if row[4] is None else row[4] for row in change.rows]
    yield f"upper bounds of {name}", [row[0] for row, bound, number in zip(change.rows, most, true) if bound < number], []
    ends = runs.outcomes()
    values = [{state[i] for state in ends} for i in range(len(circuit.start))]
    yield f"ends of {name}", [row[0] for row, found in zip(change.rows, values) if row[2] != "X" and found - {row[2]}], []
    tally.rests += any(not unstable for unstable in runs.unstable.values())
    tally.kept += change.kept == "yes"
    if tally.counts_bounds:
        moving = [i for i, bound in enumerate(most) if bound]
        tally.bounds += len(moving)
        tally.exact += sum(min(most[i], MOST_CHANGES) == true[i] for i in moving)
        tally.ends += len(moving) if ends else 0
        tally.least += sum(change.rows[i][2] == model.join(values[i]) for i in moving if ends)


def walk_checks(name, circuit, orders, most, cap):
    """The bound of each gate under orders against the walks through what its wires are told. Behind feedback it may be greater."""
    reads, free = circuit.reads(), circuit.feedback_free()
    for gate, (node, kind, _) in enumerate(circuit.gates, len(circuit.inputs)):
        wires = reads[gate]
        counts = [most[wire] for wire in wires]
        if None in counts or math.prod(count + 1 for count in counts) > MOST_POSITIONS:
            continue
        own = [(wires.index(first), wires.index(second), nth) for first, second, nth in orders if first in wires]
        walks = most_of_walks(kind, [circuit.start[wire] for wire in wires], counts, own)
        best = walks if walks <= cap else None
        yield f"walks of {node} in {name}", best if most[gate] is None or gate not in free and most[gate] >= walks else most[gate], best


def change_checks(name, circuit, script, change, tally):
    """All that is said of a change that is made."""
    names, b = circuit.variables(), circuit.algorithm_b()[-1]
    ways = ways_of(circuit, change.column(4))
    split = split_used(script.assumptions, change.used, b, circuit.start, names, ways)
    yield f"used orders of {name}", split is not None, True
    yield f"tables of {name}", [order for order in change.used if ways[names.index(order[0])] > MOST_POSITIONS], []
    following, idle = split or ([], 0)
    yield f"number of orders of {name}", change.counts, f"orders used {len(change.used)} idle {idle}"
    yield from row_checks(name, circuit, change)
    if not change.used:
        yield f"no order is kept of {name}", (change.kept, change.column(2)), (None, list(b))
        return
    orders = [(names.index(first), names.index(second), nth) for first, second, nth in change.used]
    yield from walk_checks(name, circuit, orders, change.column(4), script.cap)
    yield f"narrow ends of {name}", "".join(change.column(2)), narrowed(circuit, change.column(4))
    if change.kept == "yes":
        yield f"kept run of {name}", is_kept_run(circuit, orders, circuit.runs_of(change.run)[0][0]), True
    if len(names) > MOST_VARIABLES:
        return
    tally.ordered += 1
    yield from enumerated(name, circuit, orders, change, tally)
    for wire, (first, second, nth) in following:
        order = (names.index(first), names.index(second), nth)
        yield f"what follows from {wire} of {name}", KeptRuns(circuit, [order], names.index(wire)).breaks, False


def followed(circuit, script, parts):
    """The changes of a report one after the other: each with its number, its words and the variable that stops it as they are to be, and
    with the circuit at its start if it is made."""
    number = 0
    for (state, bursts), (_, changes) in zip(script.parts, parts):
        stopped = None
        for burst, change in zip(bursts, changes):
            number += 1
            moved = None if stopped else circuit.moved(state, burst)
            yield change, (number, [f"{circuit.names[i]}={bit}" for i, bit in burst], stopped), moved
            if moved and change.rows:
                state, stopped = next_start(moved, "".join(change.column(2)))


def script_checks(number, circuit, script, text, tally):
    """The report of a script: its starts, and each change."""
    _, parts = parts_of(text)
    starts = ["start" + "".join(f" {name}={bit}" for name, bit in zip(circuit.names, state)) for state, _ in script.parts]
    yield f"starts of script {number}", [line for line, _ in parts], starts
    yield f"number of changes of script {number}", [len(changes) for _, changes in parts], [len(bursts) for _, bursts in script.parts]
    for change, wanted, moved in followed(circuit, script, parts):
        name = f"change {wanted[0]} of script {number}"
        yield f"line of {name}", (change.number, change.assigned, change.stopped), wanted
        if moved:
            yield from change_checks(name, moved, script, change, tally)


def call_checks(number, program, folder, circuit, text, script):
    """What other calls of the program say: its runs replay, a change that uses no order is as in a script without assumptions, and so is
    the whole report if none does."""
    _, parts = parts_of(text)
    for change, (count, _, _), moved in followed(circuit, script, parts):
        if moved and change.run:
            runs = write(folder, "o.runs", "\n".join(change.run) + "\n")
            steps = sum(line.split()[0] == "step" for line in change.run)
            yield f"replay of change {count} of script {number}", run(program, ["replay", "o.bench", runs], folder), (0, f"yes: runs 1 steps {steps} cycles 0\n")
        if moved and not change.used:
            plain = run(program, ["edges"] + script.options + ["o.bench", write(folder, "p.txt", moved.script())], folder)[1]
            yield f"change {count} of script {number} as without assumptions", change.text(), parts_of(plain)[1][0][1][0].text()
    if not any(change.used for _, changes in parts for change in changes):
        plain = run(program, ["edges"] + script.options + ["o.bench", write(folder, "p.txt", script.text(circuit, []))], folder)[1]
        yield f"script {number} as without assumptions", re.sub(r"(?m)^orders used 0 idle \d+\n", "", text), plain


def orders(program, folder):
    """Assumptions of time in small circuits, against all runs that keep them."""
    tally = Tally()
    for number, (circuit, script) in enumerate([*random_scripts(SCRIPTS, 7), *busy_scripts(SCRIPTS // 4, 8)]):
        files = [write(folder, "o.bench", circuit.netlist()), write(folder, "o.txt", script.text(circuit))]
        status, text = run(program, ["edges"] + script.options + files, folder)
        yield f"status of script {number}", status, 0
        if status == 0:
            tally.counts_bounds = "--cap" not in script.options
            yield from script_checks(number, circuit, script, text, tally)
            yield from call_checks(number, program, folder, circuit, text, script)
    yield from tally.checks()
    yield from wide_gates(program, folder)


def wide_gates(program, folder):
    """A gate whose wires can each move once stands in 2 to their number ways. Up to the most that have a table its order is used, and the
    gate stays. Else the order is neither used nor idle, and the change is as without it. An order of the wire that stays is idle."""
    for pins in (3, 9, 10, 12):
        gates = f"INPUT(a)\nINPUT(b)\nn = NOT(a)\nz = AND({'a, ' * (pins - 1)}n, b)\ny = AND(a, n)\n"
        own, other, idle = f"order z({pins}) z(1)", "order y(2) y(1)", f"order z({pins + 1}) z(1)"
        found, without = wide_change(program, folder, gates, [own, idle]), wide_change(program, folder, gates, [])
        both = wide_change(program, folder, gates, [own, other, idle])
        fits = 2 ** pins <= MOST_POSITIONS
        used = [(f"z({pins})", "z(1)", 1)] if fits else []
        yield f"order of {pins} pins", (found.used, found.counts), (used, f"orders used {len(used)} idle 1")
        yield f"kept run of {pins} pins", found.kept, "yes" if fits else None
        yield f"order of {pins} pins beside another", (both.used, both.counts), (used + [("y(2)", "y(1)", 1)], f"orders used {len(used) + 1} idle 1")
        yield f"gate of {pins} pins", [row[5] for row in found.rows if row[0] == "z"], ["steady" if fits else "static"]
        yield f"{pins} pins as without assumptions", found.text() == without.text(), not fits


def wide_change(program, folder, gates, statements):
    """What the program says of the one change of a wide gate under some orders."""
    script = "".join(line + "\n" for line in [*statements, "start a=0 b=1", "change a=1"])
    _, text = run(program, ["edges", write(folder, "w.bench", gates), write(folder, "w.txt", script)], folder)
    return parts_of(text)[1][0][1][0]


def rests_on(words, used):
    """Whether an assumption is one of the orders that are used, or has the wire of one as its first."""
    if words[0] == "ideal":
        return any(words[1] == first for first, _, _ in used)
    return (words[1], words[2], int(words[3]) if words[3:] else 1) in used


class Exploration:
    """A plain search over the job `edges`: the states to which bursts lead, and the lines of the job `explore`."""

    def __init__(self, program, folder, circuit, script, bursts):
        self.program, self.folder, self.circuit, self.script, self.bursts = program, folder, circuit, script, bursts
        self.states, self.kinds, self.lines = [circuit.start], [], []
        for number, state in enumerate(self.states, 1):
            self.lines.append(f"state {number}" + "".join(f" {name}={bit}" for name, bit in zip(circuit.names, state)))
            self.lines += [self.line(number, state, *made) for made in self.changes(state)]
        counts = " ".join(f"{kind} {self.kinds.count(kind)}" for kind in ("clean", "hazards", "unsettled"))
        self.lines.append(f"all states {len(self.states)} changes {len(self.kinds)} {counts}")

    def changes(self, state):
        """The bursts that apply to a state, each with its change in a report that begins it there."""
        bursts = [burst for burst in self.bursts if burst and all(state[i] != bit for i, bit in burst)]
        script = Script(self.script.assumptions, [(state, [burst]) for burst in bursts], self.script.options[2:])
        if not bursts:
            return []
        files = [write(self.folder, "f.bench", self.circuit.netlist()), write(self.folder, "f.txt", script.text(self.circuit))]
        return zip(bursts, [change for _, (change,) in parts_of(run(self.program, ["edges"] + script.options + files, self.folder)[1])[1]])

    def line(self, number, state, burst, change):
        words = "".join(f" {self.circuit.names[i]}={bit}" for i, bit in burst)
        place, stopped = next_start(self.circuit.moved(state, burst), "".join(change.column(2)))
        stated = [str(count) for count, one in enumerate(self.script.assumptions, 1) if rests_on(one, change.used)]
        used = " ".join(["", "used", *stated]) + " not shown" * (change.kept == "not shown") if change.used else ""
        if stopped:
            self.kinds.append("unsettled")
            return f"{number} unsettled{words} {stopped}{used}"
        if place not in self.states:
            self.states.append(place)
        kinds = change.column(5)[:len(self.circuit.names)]
        self.kinds.append("clean" if {*kinds} <= {"steady", "single"} and change.kept != "not shown" else "hazards")
        counts = "".join(f" {kind} {kinds.count(kind)}" for kind in ("single", "static", "dynamic", "maybe-dynamic", "maybe-static"))
        return f"{number} to {self.states.index(place) + 1}{words}{counts}{used}"


def explorations_under(program, folder):
    """The job `explore` under assumptions, against a plain search over the job `edges`."""
    for number, (circuit, script) in enumerate(random_scripts(120, 9)):
        alone = number % 2
        bursts = circuit.single_bursts() if alone else script.parts[0][1]
        text = Script(script.assumptions, [(script.parts[0][0], [] if alone else bursts)]).text(circuit)
        files = [write(folder, "o.bench", circuit.netlist()), write(folder, "o.txt", text)]
        status, found = run(program, ["explore"] + script.options[2:] + files, folder)
        lines = re.sub(r"(?s)\A.*?(?=^state 1 )", "", found, flags=re.M).splitlines()
        yield f"exploration {number} under assumptions", (status, lines), (0, Exploration(program, folder, circuit, script, bursts).lines)


PARTS = (orders, explorations_under)
