"""Netlists in BLIF by a plain program that follows the definitions, texts at random, and texts as other programs write them.

`reading` says what a text comes to: the line of its refusal, or the same circuit in the .bench format, node by node in the same order. So
whatever `hazard` says of the one text it must say of the other.
"""
import os
from typing import NamedTuple

MOST_VARIABLES = 200_000
MOST_PINS = 256
LONGEST_NAME = 240
STATEMENTS = (".model", ".inputs", ".outputs", ".names", ".end")
FORM, NAME, CONSTRUCT, TWICE, COVER, PINS, CONSTANT, UNDEFINED, VARIABLES = range(1, 10)
NETLISTS = os.path.join(os.path.dirname(os.path.abspath(__file__)), "netlists")


class Cover(NamedTuple):
    """A cover: the line of its `.names`, its pins, its output, and its rows, each with its line and its tokens."""

    line: int
    pins: list
    output: str
    rows: list

    def is_row(self, tokens):
        planes, column = tokens[:-1], tokens[-1]
        fits = len(planes) == 1 and len(planes[0]) == len(self.pins) and not set(planes[0]) - set("01-") if self.pins else not planes
        return fits and column in ("0", "1")

    def is_constant(self):
        return not self.pins or not self.rows or any(len(tokens) < 2 or not set(tokens[0]) - {"-"} for _, tokens in self.rows)

    def wrong_rows(self):
        return [line for line, tokens in self.rows if not self.is_row(tokens) or tokens[-1] != self.rows[0][1][-1]]

    def excess(self):
        """The count of its pins, or else of its rows, if there are too many."""
        return next((len(items) for items in (self.pins, self.rows) if len(items) > MOST_PINS), None)

    def gates(self):
        """Its gates in order: the name, the kind, and what the pins read."""
        planes, column = [tokens[0] for _, tokens in self.rows], self.rows[0][1][1]
        literals = [[(pin, bit) for pin, bit in enumerate(plane, 1) if bit != "-"] for plane in planes]
        if len(literals) == 1 and len(literals[0]) == 1:
            pin, bit = literals[0][0]
            return [(self.output, "BUFF" if bit == column else "NOT", [self.pins[pin - 1]])]
        named = lambda pin, bit: self.pins[pin - 1] if bit == "1" else f"{self.output}\\n{pin}"
        inverters = [(named(pin, "0"), "NOT", [name]) for pin, name in enumerate(self.pins, 1) if any((pin, "0") in row for row in literals)]
        rows = [[named(pin, bit) for pin, bit in row] for row in literals]
        if len(rows) == 1:
            return inverters + [(self.output, "AND" if column == "1" else "NAND", rows[0])]
        terms = [row[0] if len(row) == 1 else f"{self.output}\\r{number}" for number, row in enumerate(rows, 1)]
        row_gates = [(term, "AND", row) for term, row in zip(terms, rows) if len(row) > 1]
        return inverters + row_gates + [(self.output, "OR" if column == "1" else "NOR", terms)]


class Text:
    """What the lines of a text say, and the faults that stand in it: number, line, and the words of the refusal."""

    def __init__(self, text):
        self.faults, self.covers, self.inputs, self.outputs, self.definitions = [], [], [], [], []
        self.is_first, self.has_end, self.open = True, False, None
        for line, statement in joined(text):
            if any(byte != "\t" and not " " <= byte <= "~" for byte in statement):
                self.fault(FORM, line, "form")
            tokens = statement.replace("\t", " ").split(" ")
            self.take(line, [token for token in tokens if token])
        self.name_faults()
        self.cover_faults()

    def fault(self, number, line, words):
        self.faults.append((number, line, words))

    def take(self, line, tokens):
        """Takes what a line says; a blank line says nothing, and a construct only ends a cover."""
        if not tokens:
            return
        keyword = tokens[0]
        if keyword.startswith(".") and keyword not in STATEMENTS:
            self.open = None
            self.fault(CONSTRUCT, line, "construct")
            return
        if self.has_end:
            self.fault(FORM, line, "form")
        if keyword.startswith("."):
            self.statement(line, keyword, tokens[1:])
        elif self.open:
            self.open.rows.append((line, tokens))
        else:
            self.fault(FORM, line, "form")
        self.is_first = False

    def statement(self, line, keyword, names):
        """Takes one of the five statements."""
        self.open = None
        if keyword == ".model" and (len(names) > 1 or not self.is_first) or keyword == ".names" and not names or keyword == ".end" and names:
            self.fault(FORM, line, "form")
        if keyword == ".end":
            self.has_end = True
            return
        if any(byte in "(),=\\" for name in names for byte in name):
            self.fault(FORM, line, "form")
        if any(len(name) > LONGEST_NAME for name in names):
            self.fault(NAME, line, "name too long")
        if keyword == ".inputs":
            self.inputs += names
            self.definitions += [(name, line) for name in names]
        elif keyword == ".outputs":
            self.outputs += [(name, line) for name in names]
        elif keyword == ".names" and names:
            self.open = Cover(line, names[:-1], names[-1], [])
            self.covers.append(self.open)
            self.definitions.append((names[-1], line))

    def name_faults(self):
        first = {}
        for name, line in self.definitions:
            if name in first:
                self.fault(TWICE, line, f"defined twice, first on line {first[name]}")
            first.setdefault(name, line)
        used = {name for cover in self.covers for name in cover.pins} | {name for name, _ in self.outputs}
        self.kept = [cover for cover in self.covers if not cover.is_constant() or cover.output in used]
        uses = [(name, cover.line) for cover in self.kept for name in cover.pins] + self.outputs
        for name, line in uses:
            if name not in first:
                self.fault(UNDEFINED, line, "undefined name")

    def cover_faults(self):
        for cover in self.covers:
            for line in cover.wrong_rows():
                self.fault(COVER, line, "cover")
            if cover.excess():
                self.fault(PINS, cover.line, f"pins {cover.excess()}")
        for cover in self.kept:
            if cover.is_constant():
                self.fault(CONSTANT, cover.line, "constant")

    def answer(self):
        """The line of the refusal and None, or None and the text in the .bench format."""
        if not self.faults:
            gates = [gate for cover in self.kept for gate in cover.gates()]
            variables = len(self.inputs) + len(gates) + sum(len(sources) for _, _, sources in gates)
            if variables > MOST_VARIABLES:
                return f"refused: netlist: variables {variables}", None
            lines = [f"INPUT({name})" for name in self.inputs] + [f"OUTPUT({name})" for name, _ in self.outputs]
            lines += [f"{name} = {kind}({', '.join(sources)})" for name, kind, sources in gates]
            return None, "\n".join(lines) + "\n"
        _, line, words = min(self.faults, key=lambda fault: fault[:2])
        return f"refused: netlist line {line}: {words}", None


def joined(text):
    """The lines of a text with their numbers, without comments; a line that ends in a backslash goes on in the next one."""
    number, front = None, ""
    for line, row in enumerate(text.split("\n"), 1):
        number = number or line
        front += row.removesuffix("\r").split("#")[0]
        if front.endswith("\\"):
            front = front[:-1] + " "
        else:
            yield number, front
            number, front = None, ""
    if number:
        yield number, front


def reading(text):
    return Text(text).answer()


def random_text(chance):
    """A small text, in which most is as it should be."""
    names = [chance.choice(["a", "b", "c", "d", "e", "y", "z", "w", "$x", "n.1"]) for _ in range(6)]
    break_line = lambda: chance.choice(["\n", "\n", "\n", "\r\n"])
    gap = lambda: chance.choice([" ", " ", "\t", "  ", " \\" + break_line() + " "])
    lines = []

    def emit(*words):
        tail = "".join(piece for piece, odds in ((" # c", .08), (" \\# d", .03), ("\\", .02)) if chance.random() < odds)
        lines.append(words[0] + "".join(gap() + word for word in words[1:]) + tail + break_line())
        if chance.random() < .05:
            lines.append(chance.choice(["", "  ", "# (\x7f", "\\"]) + break_line())

    if chance.random() < .7:
        emit(*[".model", "m"][:chance.choice([1, 2, 2, 2])])
    inputs = list(dict.fromkeys(chance.sample(names, chance.randint(0, 3))))
    emit(".inputs", *inputs, *[name for name in inputs if chance.random() < .02])
    free = [name for name in dict.fromkeys(names) if name not in inputs]
    if chance.random() < .85:
        emit(".outputs", *[chance.choice(inputs + free) for _ in range(chance.randint(0, 2))])
    for output in free[:None if chance.random() < .8 else chance.randint(0, len(free))]:
        random_cover(chance, emit, inputs + free, output)
    if chance.random() < .6:
        emit(".end")
    if chance.random() < .03:
        emit(".names", chance.choice(names), chance.choice(names))
    return "".join(lines) + (chr(chance.randrange(256)) if chance.random() < .02 else "")


def random_cover(chance, emit, names, output):
    """A cover with its rows, and at times a line of another kind in front of it."""
    if chance.random() < .03:
        emit(chance.choice([".latch", ".end", ".gate", ".INPUTS", ".model", ".exdc", ".namesx", "."]), *names[:chance.randint(0, 2)])
    pins = [chance.choice(names) for _ in range(chance.choice([0, 1, 1, 2, 2, 3, 3, 4]))]
    if chance.random() < .02:
        pins.append(chance.choice(["un", "a(b", "\\", "x" * chance.randint(239, 242)]))
    emit(".names", *pins, output)
    column = chance.choice("01")
    for _ in range(chance.choice([0, 1, 1, 2, 2, 3]) if chance.random() < .97 else 5):
        plane = "".join(chance.choice("01-") for _ in range(len(pins) + (chance.random() < .015)))
        if not set(plane) - {"-"} and pins and chance.random() < .9:
            plane = "1" + plane[1:]
        emit(*filter(None, [plane, column if chance.random() < .985 else chance.choice("012-")]))


# Each fault by its number in three lines or fewer, whose names begin with a prefix: the lines, the place of the line that has the fault, and
# the words of the refusal. No lesser fault and no other line with the same number is in them.
FAULTS = {
    FORM: lambda p: ([f".inputs {p}("], 1, "form"),
    NAME: lambda p: ([f".inputs {p * 241}"], 1, "name too long"),
    CONSTRUCT: lambda p: ([f".latch {p} {p}q"], 1, "construct"),
    TWICE: lambda p: ([f".inputs {p} {p}q", f".inputs {p}q"], 2, "defined twice, first on line {}"),
    COVER: lambda p: ([f".inputs {p}", f".names {p} {p}q", "2 1"], 3, "cover"),
    PINS: lambda p: ([f".inputs {p}", f".names {' '.join([p] * 257)} {p}q"], 2, "pins 257"),
    CONSTANT: lambda p: ([f".names {p}", "1", f".outputs {p}"], 1, "constant"),
    UNDEFINED: lambda p: ([f".outputs {p}"], 1, "undefined name"),
}
MANY = [".inputs m"] + [line for number in range(100_000) for line in (f".names m m{number}", "1 1")]


def of_fault(number, prefix, before):
    """The lines that have a fault, and the line of its refusal where so many lines stand before them."""
    lines, place, words = FAULTS[number](prefix)
    return lines, f"refused: netlist line {before + place}: {words.format(before + 1)}\n"


def faults_in_order():
    """Two faults in one text: the lesser number is the answer, and of one number the lesser line."""
    for number in FAULTS:
        own, alone = of_fault(number, "a", 0)
        yield f"fault {number} alone", own, alone
        yield f"fault {number} twice", own + of_fault(number, "b", 0)[0], alone
        if number + 1 in FAULTS:
            later = of_fault(number + 1, "b", 0)[0]
            yield f"fault {number} in front of {number + 1}", own + later, alone
            yield f"fault {number} behind {number + 1}", later + own, of_fault(number, "a", len(later))[1]
    yield "fault 8 behind 9", MANY + [".outputs z"], f"refused: netlist line {len(MANY) + 1}: undefined name\n"
    yield "fault 9", MANY, "refused: netlist: variables 200001\n"


# Texts that are refused, with the line and the words: what a line may not be, and readings that are open to doubt.
REFUSED = [
    ("a byte below the blank", ".inputs a\x01\n", 1, "form"),
    ("a byte above the letters", ".outputs\n.exdc \x7f\n", 2, "form"),
    ("a second carriage return", ".inputs a\r\r\n", 1, "form"),
    *[(f"the sign {sign}", f".inputs a\n.outputs a{sign}b\n", 2, "form") for sign in "(),=\\"],
    ("a backslash, a blank, a comment", ".inputs a\n.names a \\ # c\n1 1\n", 2, "form"),
    ("the second name of .model", "\n.model m n\n", 2, "form"),
    ("the name of .model has a sign", ".model m(1)\n", 1, "form"),
    ("the name of .model is long", ".model " + "m" * 241 + "\n", 1, "name too long"),
    (".model as the second statement", ".inputs a\n.model m\n", 2, "form"),
    ("a second .model", ".model m\n.model m\n", 2, "form"),
    (".model behind a statement without names", ".inputs\n.model m\n", 2, "form"),
    (".names without a name", ".names\n", 1, "form"),
    ("a row behind .names without a name", ".names\n1\n", 1, "form"),
    (".end with a name", ".end x\n", 1, "form"),
    ("a second .end", ".end\n\n.end\n", 3, "form"),
    ("a statement behind .end", ".end\n# c\n.inputs a\n", 3, "form"),
    ("a row behind .end", ".inputs a\n.names a y\n.end\n1 1\n", 4, "form"),
    ("a row of no cover", "1 1\n", 1, "form"),
    ("a row behind another statement", ".inputs a\n.names a y\n1 1\n.outputs y\n1 1\n", 5, "form"),
    ("a row behind a construct", ".inputs a\n.names a y\n.latch q r\n1 1\n", 4, "form"),
    ("a construct behind .end", ".end\n.exdc\n", 2, "construct"),
    ("a construct in front of .model", ".latch a b\n.model m\n", 1, "construct"),
    ("names of a construct are not looked at", ".gate x(y) " + "n" * 300 + "\n", 1, "construct"),
    ("a keyword in capitals", ".INPUTS a\n", 1, "construct"),
    ("a dot alone", ".\n", 1, "construct"),
    ("a name twice on a line", ".inputs a a\n", 1, "defined twice, first on line 1"),
    ("the first of three definitions", ".inputs a\n.names a y\n1 1\n.names a y\n1 1\n.inputs y\n", 4, "defined twice, first on line 2"),
    ("a skipped cover defines its output", ".names $true\n1\n.inputs $true\n", 3, "defined twice, first on line 1"),
    ("a plane that is too short", ".inputs a b\n.names a b y\n1 1\n", 3, "cover"),
    ("a plane that is too long", ".inputs a b\n.names a b y\n111 1\n", 3, "cover"),
    ("a plane in two words", ".inputs a b\n.names a b y\n1 1 1\n", 3, "cover"),
    ("a plane that a backslash cuts", ".inputs a b\n.names a b y\n1\\\n1 1\n", 3, "cover"),
    ("a row without a column", ".inputs a\n.names a y\n1\n", 3, "cover"),
    ("a column that is no bit", ".inputs a\n.names a y\n1 -\n", 3, "cover"),
    ("a row with a plane in a cover without pins", ".names y\n1 1\n", 2, "cover"),
    ("columns that differ", ".inputs a\n.names a y\n1 1\n0 0\n", 4, "cover"),
    ("columns that differ in 301 rows", ".inputs a\n.names a y\n1 1\n" + "1 0\n" * 300, 4, "cover"),
    ("the column of the first row, even if that is wrong", ".inputs a\n.names a y\n1 x\n1 1\n", 3, "cover"),
    ("a row of a skipped cover", ".names y\n1\n2\n", 3, "cover"),
    ("a lone backslash in a row", ".inputs a\n.names a y\n1 \\ 1\n", 3, "cover"),
    ("257 rows", ".inputs a\n.names a y\n" + "1 1\n" * 257, 2, "pins 257"),
    ("258 pins and 257 rows", ".inputs a\n.names" + " a" * 258 + " y\n" + ("1" * 258 + " 1\n") * 257, 2, "pins 258"),
    ("257 rows of a skipped cover", ".names y\n" + "1\n" * 257, 1, "pins 257"),
    ("a constant at a pin", ".names $true\n1\n.names $true y\n1 1\n", 1, "constant"),
    ("a constant as an output", ".outputs y\n.names y\n", 2, "constant"),
    ("a row without a literal", ".inputs a\n.outputs y\n.names a y\n- 1\n", 3, "constant"),
    ("a pin of a skipped cover counts", ".names $false\n.names $false y\n", 1, "constant"),
    ("a constant that reads itself", ".names y y\n", 1, "constant"),
    ("a pin that nothing defines", ".inputs a\n.names a b y\n11 1\n", 2, "undefined name"),
    ("an output that nothing defines", ".outputs\n.outputs y z\n.inputs z\n", 2, "undefined name"),
    ("a pin behind an output", ".names b y\n1 1\n.outputs z\n", 1, "undefined name"),
    ("lines that are joined have the number of the first", "\n\\\n\\\n.latch\n", 2, "construct"),
    ("a name on a joined line has the number of the first", ".inputs a\n.outputs a \\\nb\n", 2, "undefined name"),
    ("the line behind joined lines", ".inputs \\\na \\\nb\n.outputs c\n", 4, "undefined name"),
]

# Texts that are read, with the same circuit in the .bench format, by hand.
READ = [
    ("the multiplexer", ".model mux\n.inputs s x y\n.outputs z\n.names s x y z\n11- 1\n0-1 1\n.end\n",
     "INPUT(s)\nINPUT(x)\nINPUT(y)\nOUTPUT(z)\nz\\n1 = NOT(s)\nz\\r1 = AND(s, x)\nz\\r2 = AND(z\\n1, y)\nz = OR(z\\r1, z\\r2)\n"),
    ("with its cover", ".inputs s x y\n.outputs z\n.names s x y z\n11- 1\n0-1 1\n-11 1\n",
     "INPUT(s)\nINPUT(x)\nINPUT(y)\nOUTPUT(z)\nz\\n1 = NOT(s)\nz\\r1 = AND(s, x)\nz\\r2 = AND(z\\n1, y)\nz\\r3 = AND(x, y)\nz = OR(z\\r1, z\\r2, z\\r3)\n"),
    ("the column 0", ".inputs a b\n.names a b y\n11 0\n00 0\n", "INPUT(a)\nINPUT(b)\ny\\n1 = NOT(a)\ny\\n2 = NOT(b)\ny\\r1 = AND(a, b)\ny\\r2 = AND(y\\n1, y\\n2)\ny = NOR(y\\r1, y\\r2)\n"),
    ("one row, column 1", ".inputs a b c\n.names a b c y\n1-0 1\n", "INPUT(a)\nINPUT(b)\nINPUT(c)\ny\\n3 = NOT(c)\ny = AND(a, y\\n3)\n"),
    ("one row, column 0", ".inputs a b\n.names a b y\n11 0\n", "INPUT(a)\nINPUT(b)\ny = NAND(a, b)\n"),
    *[(f"one literal {bit}, column {column}", f".inputs a b\n.names a b y\n-{bit} {column}\n", f"INPUT(a)\nINPUT(b)\ny = {'BUFF' if bit == column else 'NOT'}(b)\n")
      for bit in "01" for column in "01"],
    ("rows of one literal", ".inputs a b\n.names a b y\n1- 1\n-0 1\n", "INPUT(a)\nINPUT(b)\ny\\n2 = NOT(b)\ny = OR(a, y\\n2)\n"),
    ("a row twice", ".inputs a\n.names a y\n0 0\n0 0\n", "INPUT(a)\ny\\n1 = NOT(a)\ny = NOR(y\\n1, y\\n1)\n"),
    ("a pin twice", ".inputs a\n.names a a y\n01 1\n", "INPUT(a)\ny\\n1 = NOT(a)\ny = AND(y\\n1, a)\n"),
    ("a cover that reads itself", ".inputs a\n.names a y y\n1- 1\n-1 1\n", "INPUT(a)\ny = OR(a, y)\n"),
    ("names before they are defined", ".outputs z y z\n.names y z\n0 1\n.names a y\n1 1\n.inputs a\n", "INPUT(a)\nOUTPUT(z)\nOUTPUT(y)\nz = NOT(y)\ny = BUFF(a)\n"),
    ("nothing", "", ""),
    ("statements without names", ".model\n.inputs\n.outputs\n.end\n", ""),
    ("constants that are not used", ".names $false\n.names $true\n1\n.names $undef\n.names nothing y\n- 0\n", ""),
    ("a skipped cover whose pins nothing defines", ".names q x y\n.inputs a\n.outputs a\n", "INPUT(a)\nOUTPUT(a)\n"),
    ("a comment of any bytes", ".inputs a # ((=\x01\xff\n.names a y\n1 1\n", "INPUT(a)\ny = BUFF(a)\n"),
    ("no statement is missed", "# c\n\n  \t\n.inputs a # b\n\t.names a\ty\n\n# d\n\n 1 1\n", "INPUT(a)\ny = BUFF(a)\n"),
    ("a carriage return in front of the end", ".inputs a\r\n.names a y\r\n1 1\r", "INPUT(a)\ny = BUFF(a)\n"),
    ("joined at carriage returns", ".inputs a \\\r\nb\r\n.names a \\# c\n b y\n11 \\\r\n1\r", "INPUT(a)\nINPUT(b)\ny = AND(a, b)\n"),
    ("the last line goes on", ".inputs a\n.names a y\n1 1\\", "INPUT(a)\ny = BUFF(a)\n"),
    ("a backslash is a blank", ".inputs a\\\nb\n.names a b y\n11 1\n", "INPUT(a)\nINPUT(b)\ny = AND(a, b)\n"),
    ("names that begin with a dot", ".inputs .names .end\n.names .names .end y\n11 1\n", "INPUT(.names)\nINPUT(.end)\ny = AND(.names, .end)\n"),
    ("a name of 240 bytes", f".inputs {'n' * 240}\n.names {'n' * 240} y{'y' * 239}\n0 1\n", f"INPUT({'n' * 240})\ny{'y' * 239} = NOT({'n' * 240})\n"),
    ("256 pins", ".inputs a\n.names" + " a" * 256 + " y\n" + "1" * 256 + " 1\n", f"INPUT(a)\ny = AND({', '.join(['a'] * 256)})\n"),
    ("256 rows", ".inputs a\n.names a y\n" + "1 1\n" * 256, f"INPUT(a)\ny = OR({', '.join(['a'] * 256)})\n"),
    ("200,000 variables", "\n".join(MANY[:-2] + [".inputs n"]) + "\n", "INPUT(m)\nINPUT(n)\n" + "".join(f"m{number} = BUFF(m)\n" for number in range(99_999))),
]


# The files of `netlists`, as other programs wrote them, with a line of what is said of each, for a script on s, x and y where it is read.
HAS_HAZARD, HAS_NONE = "z start 1 A X B 1 changes 2 static", "z start 1 A 1 B 1 changes 0 steady"
WRITTEN = {
    "yosys-mux.blif": HAS_HAZARD,
    "yosys-cover.blif": HAS_NONE,
    "yosys-tied.blif": "refused: netlist line 7: constant",
    "yosys-latch.blif": "refused: netlist line 10: construct",
    "yosys-toggle.blif": "refused: netlist line 10: form",
    "abc-cover.blif": HAS_NONE,
    "abc-collapsed.blif": HAS_HAZARD,
    "abc-tied.blif": "refused: netlist line 7: constant",
    "abc-latch.blif": "refused: netlist line 6: construct",
}
YOSYS = "read_verilog {}.v; synth -flatten; abc -g AND,OR,XOR; opt_clean; write_blif out.blif"
# The names under which these programs are installed, and the commands by which they write such files, as out.blif, in a copy of `netlists`.
INSTALLED = {"yosys": ("yosys",), "abc": ("abc", "berkeley-abc", "yosys-abc")}
COMMANDS = [
    *[(f"yosys-{name}.blif", ["yosys", "-q", "-p", YOSYS.format(name)]) for name in ("mux", "tied", "latch", "toggle")],
    ("yosys-cover.blif", ["yosys", "-q", "-p", "read_verilog cover.v; synth -flatten -noabc; opt_clean; write_blif out.blif"]),
    *[(f"abc-{name}.blif", ["abc", "-c", f"read_blif {name}.blif; write_blif out.blif"]) for name in ("cover", "tied", "latch")],
    ("abc-collapsed.blif", ["abc", "-c", "read_blif cover.blif; collapse; write_blif out.blif"]),
]


def hostile(most):
    """Texts as long as a file or a circuit may be, each with what it is refused for, in which one thing is as large or as frequent as it can be;
    and the script, if it lists anything."""
    pins = " ".join(f"p{number}" for number in range(256))
    wide = "".join("".join("01-"[(row * 7 + pin * pin + row * pin) % 3] for pin in range(255)) + "1 1\n" for row in range(256))
    return [
        ("names of inputs", ".inputs " + " ".join(f"{number:x}" for number in range(2_100_000)), "netlist: variables 2100000"),
        ("one cover of rows", ".inputs a\n.names a y\n" + "1 1\n" * 4_190_000, "netlist line 2: pins 4190000"),
        ("constant covers", "".join(f".names x{number:07}\n" for number in range(most // 16)), None),
        ("covers of 256 pins and rows", f".inputs {pins}\n" + "".join(f".names {pins} y{number}\n{wide}" for number in range(240)), "netlist: variables 12465616"),
        ("covers of two pins", "".join(f".names {number:x} {number + 1:x} {number + 2:x}\n11 1\n" for number in range(500_000)), "netlist line 1: undefined name"),
        ("one long name", ".inputs " + "a" * (most - 8), "netlist line 1: name too long"),
        ("joined lines", "\\\n" * (most // 2), None),
        ("one line of words", ".outputs " + "a " * (most // 2 - 5), "netlist line 1: undefined name"),
        ("line feeds", "\n" * most, None),
        ("comments", "#\n" * (most // 2), None),
    ]
