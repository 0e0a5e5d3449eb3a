"""The inputs of `bench/doubling`: for each job, texts and circuits that grow in one thing.

Each is a function of a size. It gives the netlist and the second text. The least sizes are chosen so that eight times as much stays
within the limits of the program, and takes valgrind some seconds.
"""
import itertools
import os
import random
import sys
from collections import namedtuple

sys.path.append(os.path.join(os.path.dirname(os.path.dirname(os.path.abspath(__file__))), "tests"))
import chosen_names

# A row: the job, its name, the function, the least size, the status that is expected, whether the netlist is BLIF, and further words.
Case = namedtuple("Case", "job name make least status is_blif options", defaults=(0, False, []))

ONE = "INPUT(a)\ny = NOT(a)\n"
START = "start a=0\n"
CHANGE = "start a=0\nchange a=1\n"
# 65,536 names that share the hash without a key.
COLLIDING = [name.decode() for name in chosen_names.of_equal_hash()]


def lines(count, make):
    return "".join(make(k) for k in range(1, count + 1))


# ---- netlists in .bench that are only read

def outputs(n):
    return "INPUT(a)\n" + "OUTPUT(a)\n" * n, START


def own_outputs(n):
    return "INPUT(a)\n" + lines(n, lambda k: f"OUTPUT(g{k})\n") + lines(n, lambda k: f"g{k}=NOT(a)\n"), START


def comments(n):
    return "# c\n" * n, "start\n"


def long_comment(n):
    return "#" + "c" * n, "start\n"


def blanks(n):
    return " " * n, "start\n"


def line_feeds(n):
    return "\n" * n, "start\n"


def long_name(n):
    return "INPUT(" + "n" * n + ")\n", "start\n"


def long_line(n):
    return "INPUT(a)\ng = AND(" + "a, " * n + "a)\n", START


def line_of_words(n):
    return "a " * n, START


def unclosed(n):
    return "g = AND(" + "a," * n, START


def undefined_sources(n):
    return "g = AND(" + ", ".join(f"u{k}" for k in range(n)) + ")\n", START


def many_gates(n):
    """So many that they are refused as variables."""
    return "INPUT(a)\n" + lines(n, lambda k: f"g{k}=NOT(a)\n"), START


def waiting_gates(n):
    return lines(n, lambda k: f"g{k}=NOT(a)\n") + "INPUT(a)\n", START


def shuffled_gates(n):
    made = [f"g{k}=NOT(a)\n" for k in range(n)]
    random.Random(1).shuffle(made)
    return "INPUT(a)\n" + "".join(made), START


def colliding_gates(n):
    return "INPUT(a)\n" + "".join(f"{name}=NOT(a)\n" for name in COLLIDING[:n]), START


def twice(n):
    return "INPUT(a)\n" * n, START


def all_twice(n):
    return lines(n, lambda k: f"INPUT(i{k})\n") * 2, START


def last_form(n):
    return "INPUT(a)\n" + "OUTPUT(a)\n" * n + "OUTPUT(", START


def after_gates(last):
    """Gates in .bench, and one line behind them."""
    return lambda n: ("INPUT(a)\n" + lines(n, lambda k: f"g{k}=NOT(a)\n") + last, START)


last_undefined = after_gates("OUTPUT(b)\n")
last_kind = after_gates("h = FOO(a)\n")
last_twice = after_gates("INPUT(a)\n")
last_name = after_gates("INPUT(" + "n" * 256 + ")\n")
last_pins = after_gates("h = NOT(a, a)\n")


# ---- netlists in BLIF that are only read

def blif_inputs(n):
    return ".inputs " + " ".join(f"{k:x}" for k in range(n)), "start\n"


def blif_colliding(n):
    return ".inputs " + " ".join(COLLIDING[:n]), "start\n"


def blif_rows(n):
    return ".inputs a\n.names a y\n" + "1 1\n" * n, START


def blif_constants(n):
    return "".join(f".names x{k:07}\n" for k in range(n)), "start\n"


def blif_used_constant(n):
    return "".join(f".names x{k:07}\n" for k in range(n)) + f".outputs x{n - 1:07}\n", "start\n"


def blif_covers(n):
    return ".inputs a b\n" + lines(n, lambda k: f".names a b g{k}\n10 1\n01 1\n"), "start a=0 b=0\nchange a=1\n"


def blif_chain(n):
    return ".inputs g0\n" + lines(n, lambda k: f".names g{k - 1} g{k}\n1 1\n"), "start g0=0\nchange g0=1\n"


def blif_wide(n):
    plane = "".join("01-"[(k * k) % 3] for k in range(128))
    pins = " ".join(f"p{k}" for k in range(128))
    return f".inputs {pins}\n" + lines(n, lambda k: f".names {pins} y{k}\n{plane} 1\n{plane[1:]}0 1\n"), "start " + " ".join(f"p{k}=0" for k in range(128)) + "\nchange p0=1\n"


def blif_inverted(n):
    """Covers of 64 pins and rows, each with its own inverters."""
    pins = " ".join(f"p{k}" for k in range(16))
    rows = "".join("".join("01"[(row >> k) & 1] for k in range(16)) + " 1\n" for row in range(64))
    return f".inputs {pins}\n" + lines(n, lambda k: f".names {pins} y{k}\n{rows}"), "start\n"


def blif_joined(n):
    return "\\\n" * n, "start\n"


def blif_joined_words(n):
    return ".outputs " + "\\\na" * n, "start\n"


def blif_line(n):
    return ".outputs " + "a " * n, "start\n"


def blif_name(n):
    return ".inputs " + "a" * n, "start\n"


def blif_twice(n):
    return ".inputs " + "a " * n, "start\n"


def after_covers(last):
    """Covers in BLIF, and one line behind them."""
    return lambda n: (".inputs a\n" + lines(n, lambda k: f".names a g{k}\n1 1\n") + last, START)


blif_last_form = after_covers("( 1\n")
blif_last_construct = after_covers(".latch a b\n")
blif_last_undefined = after_covers(".outputs b\n")
blif_last_cover = after_covers("0 0\n")


# ---- circuits

def chain(n):
    return "INPUT(g0)\n" + lines(n, lambda k: f"g{k}=BUFF(g{k - 1})\n"), "start g0=0\nchange g0=1\n"


def reversed_chain(n):
    return "INPUT(g0)\n" + "".join(f"g{k}=BUFF(g{k - 1})\n" for k in range(n, 0, -1)), "start g0=0\nchange g0=1\n"


def star(n):
    return "INPUT(a)\n" + lines(n, lambda k: f"g{k}=NOT(a)\n"), CHANGE


def collected(n):
    """One gate behind each 256 others, of all of them."""
    made = lines(n, lambda k: f"g{k}=NOT(a)\n")
    return "INPUT(a)\n" + made + lines(n // 256, lambda k: f"h{k}=OR({','.join(f'g{p}' for p in range(256 * k - 255, 256 * k + 1))})\n"), CHANGE


def wide(n):
    return "INPUT(a)\n" + lines(n, lambda k: f"g{k}=XOR({','.join('a' * 256)})\n"), CHANGE


def wide_layers(n):
    """Layers of eight gates, each of which reads the eight before it 32 times."""
    made = lambda k: "".join(f"g{k}x{i}=NAND({','.join(f'g{k - 1}x{j}' for j in range(8) for _ in range(32))})\n" for i in range(8))
    return lines(8, lambda k: f"INPUT(g0x{k - 1})\n") + lines(n, made), "start " + " ".join(f"g0x{i}=0" for i in range(8)) + "\nchange g0x0=1 g0x3=1\n"


def reconvergent(n):
    """Each gate reads the one before it twice: the numbers of changes double."""
    return "INPUT(g0)\n" + lines(n, lambda k: f"g{k}=XOR(g{k - 1},g{k - 1})\n"), "start g0=0\nchange g0=1\n"


def ladder(n):
    return ("INPUT(g0)\nINPUT(h0)\n" + lines(n, lambda k: f"g{k}=NAND(g{k - 1},h{k - 1})\nh{k}=NOR(g{k - 1},h{k - 1})\n"), "start g0=0 h0=0\nchange g0=1 h0=1\n")


def reversed_ladder(n):
    made = (f"g{k}=NAND(g{k - 1},h{k - 1})\nh{k}=NOR(g{k - 1},h{k - 1})\n" for k in range(n, 0, -1))
    return "INPUT(g0)\nINPUT(h0)\n" + "".join(made), "start g0=0 h0=0\nchange g0=1 h0=1\n"


def grid(n):
    """Sums along both sides of a square: long paths, and many of them meet."""
    side = max(2, int(n**0.5))
    cell = lambda r, c: f"g{r}x{c}" if r and c else "a"
    return "INPUT(a)\n" + "".join(f"g{r}x{c}=OR({cell(r - 1, c)},{cell(r, c - 1)})\n" for r in range(1, side + 1) for c in range(1, side + 1)), CHANGE


def random_gates(n, back=False):
    choose = random.Random(5)
    kinds = ["AND", "NAND", "OR", "NOR", "XOR"]
    made = []
    for k in range(16, n + 16):
        pins = [choose.randrange(k) for _ in range(2)]
        if back and choose.random() < 0.1:
            pins[1] = choose.randrange(16, n + 16)
        made.append(f"g{k}={choose.choice(kinds)}(g{pins[0]},g{pins[1]})\n")
    head = "".join(f"INPUT(g{k})\n" for k in range(16))
    return head + "".join(made), "start " + " ".join(f"g{k}=0" for k in range(16)) + "\nchange " + " ".join(f"g{k}=1" for k in range(16)) + "\n"


def random_feedback(n):
    """Gates that read gates behind them too, with a start in which all that is open is held."""
    choose = random.Random(6)
    made = []
    for k in range(n):
        near, far = choose.randrange(max(1, k)), choose.randrange(n)
        made.append(f"g{k}={'AND' if choose.random() < 0.5 else 'OR'}(a,g{near},g{far})\n")
    return "INPUT(a)\n" + "".join(made), "start a=0 " + " ".join(f"g{k}=0" for k in range(n)) + "\nchange a=1\n"


def random_nands(n):
    """Gates that all rise while `a` is 0, and read any others once it rises."""
    choose = random.Random(8)
    return "INPUT(a)\n" + lines(n, lambda k: f"g{k}=NAND(a,g{choose.randrange(1, n + 1)},g{choose.randrange(1, n + 1)})\n"), CHANGE


def oscillators(n):
    return "INPUT(a)\n" + lines(n, lambda k: f"g{k}=NAND(a,g{k})\n"), CHANGE


def ring(n):
    """Gates in one loop, which never settles once `a` rises."""
    return f"INPUT(a)\ng1=NAND(a,g{n})\n" + "".join(f"g{k}=BUFF(g{k - 1})\n" for k in range(2, n + 1)), CHANGE


def reversed_ring(n):
    return "INPUT(a)\n" + "".join(f"g{k}=BUFF(g{k - 1})\n" for k in range(n, 1, -1)) + f"g1=NAND(a,g{n})\n", CHANGE


def settled_ring(n):
    """Gates in one loop, which hold 1 from their first rise on."""
    return f"INPUT(a)\ng1=OR(a,g{n})\n" + "".join(f"g{k}=BUFF(g{k - 1})\n" for k in range(2, n + 1)), "start a=0 " + " ".join(f"g{k}=0" for k in range(1, n + 1)) + "\nchange a=1\n"


def both_ways(n):
    """Each gate reads both neighbours: all are in one loop."""
    made = lambda k: f"g{k}=OR(g{k - 1},g{k + 1})\n" if k < n else f"g{k}=BUFF(g{k - 1})\n"
    return "INPUT(g0)\n" + lines(n, made), "start g0=0 " + " ".join(f"g{k}=0" for k in range(1, n + 1)) + "\nchange g0=1\n"


def both_ways_reversed(n):
    made = lambda k: f"g{k}=OR(g{k - 1},g{k + 1})\n" if k < n else f"g{k}=BUFF(g{k - 1})\n"
    return "INPUT(g0)\n" + "".join(made(k) for k in range(n, 0, -1)), "start g0=0 " + " ".join(f"g{k}=0" for k in range(1, n + 1)) + "\nchange g0=1\n"


def ring_of_wide(n):
    """Gates of 256 pins in one loop. A pulse goes round it, since the first gate reads `a` as it is and inverted."""
    made = lines(n - 1, lambda k: f"g{k + 1}=XOR({','.join([f'g{k}'] * 255 + ['a'])})\n")
    return f"INPUT(a)\nb=NOT(a)\ng1=AND(a,b,{','.join([f'g{n}'] * 254)})\n" + made, "start a=0\nchange a=1\n"


def wide_nands(n):
    """Gates of 256 pins that all rise while `a` is 0, and read any others once it rises."""
    choose = random.Random(10)
    pins = lambda: ",".join(f"g{choose.randrange(1, n + 1)}" for _ in range(255))
    return "INPUT(a)\n" + lines(n, lambda k: f"g{k}=NAND(a,{pins()})\n"), CHANGE


def pulses_back(n):
    """Random gates that pass on the pulse of one gate, and read gates behind them too."""
    choose = random.Random(11)
    name = lambda k: f"g{k}" if k >= 0 else "p"
    made = lambda k: f"g{k}={choose.choice(['AND', 'OR', 'OR', 'XOR'])}({name(choose.randrange(-1, k))},{name(choose.randrange(n if choose.random() < 0.3 else k + 1) - 1)})\n"
    return "INPUT(a)\nb=NOT(a)\np=AND(a,b)\n" + "".join(made(k) for k in range(n)), "start a=0 " + " ".join(f"g{k}=0" for k in range(n)) + "\nchange a=1\n"


def latches(n):
    made = lines(n, lambda k: f"q{k}=NOR(r,p{k})\np{k}=NOR(s,q{k})\n")
    return "INPUT(r)\nINPUT(s)\n" + made, "start r=1 s=1\nchange r=0 s=0\n"


def settled_latches(n):
    made = lines(n, lambda k: f"q{k}=NOR(r,p{k})\np{k}=NOR(s,q{k})\n")
    return "INPUT(r)\nINPUT(s)\n" + made, "start r=1 s=0\nchange r=0 s=1\n"


def latches_in_row(n):
    """Each latch sets and resets the next one."""
    made = lines(n, lambda k: f"q{k}=NOR(p{k - 1},p{k})\np{k}=NOR(q{k - 1},q{k})\n")
    return "INPUT(q0)\nINPUT(p0)\n" + made, "start q0=1 p0=0\nchange q0=0 p0=1\n"


def driving_nand(n):
    """A NAND that oscillates and drives buffers."""
    return "INPUT(a)\ny=NAND(a,y)\n" + lines(n, lambda k: f"g{k}=BUFF(y)\n"), CHANGE


def flip_flops(n):
    return "INPUT(a)\n" + lines(n, lambda k: f"q{k}=DFF({f'q{k - 1}' if k > 1 else 'a'})\n"), "start a=0\nchange a=1\n"


def flip_flops_of_one(n):
    return "INPUT(a)\n" + lines(n, lambda k: f"q{k}=DFF(a)\n") + lines(n // 4, lambda k: f"OUTPUT(q{k})\n"), CHANGE


def counter(n):
    """Flip-flops with a carry through all of them."""
    made = lambda k: f"q{k}=DFF(d{k})\nd{k}=XOR(q{k},c{k - 1})\nc{k}=AND(q{k},c{k - 1})\n"
    return "INPUT(c0)\n" + lines(n, made), "start c0=1 " + " ".join(f"q{k}=1" for k in range(1, n + 1)) + "\nchange " + " ".join(f"q{k}=0" for k in range(1, n + 1)) + "\n"


def inputs(n):
    made = lines(n, lambda k: f"INPUT(i{k})\n")
    return made, "start" + lines(n, lambda k: f" i{k}=0") + "\nchange" + lines(n, lambda k: f" i{k}=1") + "\n"


def pairs(n):
    """Gates of two inputs of their own, all changed."""
    made = lines(n, lambda k: f"INPUT(i{k})\nINPUT(j{k})\ng{k}=XOR(i{k},j{k})\n")
    return made, "start" + lines(n, lambda k: f" i{k}=0 j{k}=1") + "\nchange" + lines(n, lambda k: f" i{k}=1 j{k}=0") + "\n"


def colliding_listed(n):
    netlist, start = colliding_gates(n)
    return netlist, start.strip() + "".join(f" {name}=1" for name in COLLIDING[:n]) + "\nchange a=1\n"


# ---- scripts

def changes(n):
    return ONE, START + lines(n, lambda k: f"change a={k % 2}\n")


def changes_of_many(n):
    """A tenth as many changes, of a circuit of a hundred latches."""
    return settled_latches(100)[0], "start r=1 s=0\n" + lines(n, lambda k: f"change r={1 - k % 2} s={k % 2}\n")


def changes_stopped(n):
    return "INPUT(a)\ny=NAND(a,y)\n", START + lines(n, lambda k: f"change a={k % 2}\n")


def same_assigned(n):
    return ONE, "start a=0\nchange " + "a=1 " * n + "\n"


def unknown_assigned(n):
    return ONE, "start a=0 " + lines(n, lambda k: f"u{k}=1 ") + "\n"


def marks(n):
    return ONE, "start " + "=" * n


def script_word(n):
    return ONE, "start " + "a" * n


def script_comments(n):
    return ONE, START + "# c\n" * n


def script_last_form(n):
    return ONE, START + lines(n, lambda k: f"change a={k % 2}\n") + "change a"


def script_last_bit(n):
    return ONE, START + lines(n, lambda k: f"change a={k % 2}\n") + "change a=2"


def script_last_name(n):
    return ONE, START + lines(n, lambda k: f"change a={k % 2}\n") + "change b=1"


def script_too_many(n):
    return ONE, START + "change a=1\n" * n


def missing_input(n):
    made = lines(n, lambda k: f"INPUT(i{k})\n")
    return made, "start" + lines(n - 1, lambda k: f" i{k}=0") + "\n"


def script_feedback_open(n):
    """The start leaves the last gate open."""
    return "INPUT(a)\n" + lines(n, lambda k: f"g{k}=BUFF(a)\n") + "y=OR(a,y)\n", START


# ---- assumptions of time

def ordered_chain(n, stated="order h(1) h(2)"):
    """A gate that reads both ends of a chain, with one assumption."""
    netlist, script = chain(n)
    return netlist + f"h=XOR(g0,g{n})\n", stated + "\n" + script


def waiting_for_chain(n):
    return ordered_chain(n, "order h(2) h(1)")


def ideal_at_chain(n):
    return ordered_chain(n, "ideal h(1)")


def never_kept(n):
    """The order holds a chain of which its first wire is the end."""
    return "INPUT(a)\ng0=OR(a,g%d)\n" % n + chain(n)[0].partition("\n")[2], "order g0(2) g0(1)\nstart a=0" + lines(n + 1, lambda k: f" g{k - 1}=0") + "\nchange a=1\n"


def ordered_flip_flops(n):
    """Flip-flops of one clock, each with an order, through a whole round of the clock."""
    made = lines(n, lambda k: f"a{k}=NAND(b{k},s{k})\ns{k}=NAND(a{k},c)\nr{k}=NAND(s{k},c,b{k})\nb{k}=NAND(r{k},d)\nq{k}=NAND(s{k},p{k})\np{k}=NAND(q{k},r{k})\n")
    stated = lines(n, lambda k: f"order r{k}(2) r{k}(1)\n")
    return "INPUT(c)\nINPUT(d)\n" + made, stated + "start c=0 d=0" + lines(n, lambda k: f" q{k}=0 p{k}=1") + "\nchange d=1\nchange c=1\nchange d=0\nchange c=0\n"


NINE = "".join(f"INPUT(i{k})\n" for k in range(9))
NINE_MOVE = "start" + "".join(f" i{k}=0" for k in range(9)) + "\nchange" + "".join(f" i{k}=1" for k in range(9)) + "\n"
PAIRS = [(one, other) for one in range(1, 10) for other in range(1, 10) if one != other]


def orders_of_one_gate(n):
    """A gate of nine pins, which all move: an order of each two of them, then of the next change of the second."""
    stated = "".join(f"order g({PAIRS[k % 72][0]}) g({PAIRS[k % 72][1]}) {k // 72 + 1}\n" for k in range(n))
    return NINE + f"g=XOR({','.join(f'i{k}' for k in range(9))})\n", stated + NINE_MOVE


def ordered_gates(n, still=0):
    """Gates of nine pins that move, behind some that don't, each gate with an order."""
    pins = ",".join(["z"] * still + [f"i{k}" for k in range(9)])
    stated = lines(n, lambda k: f"order g{k}({still + 1}) g{k}({still + 2})\n")
    return "INPUT(z)\n" + NINE + lines(n, lambda k: f"g{k}=XOR({pins})\n"), stated + NINE_MOVE.replace("start", "start z=0")


def ordered_wide_gates(n):
    return ordered_gates(n, 247)


def ideals_at_chain(n, count=256):
    """Ideal wires from points of a chain into gates that read its other end too."""
    gates = lines(count, lambda k: f"h{k}=XOR(g{k},g{n + count - k})\n")
    return chain(n + count)[0] + gates, lines(count, lambda k: f"ideal h{k}(1)\n") + chain(n)[1]


def more_ideals(n):
    return ideals_at_chain(3_000, n)


def ideals_of_wide(n):
    """An ideal wire into each gate of 256 pins: 255 orders follow from it."""
    netlist, script = wide(n)
    return netlist, lines(n, lambda k: f"ideal g{k}(1)\n") + script


def ideals_in_ring(n):
    """Ideal wires into gates of a ring, which never settles."""
    netlist, script = ring(n)
    return netlist + lines(64, lambda k: f"h{k}=XOR(g{k},g{n + 1 - k})\n"), lines(64, lambda k: f"ideal h{k}(1)\n") + script


def ordered_changes(n):
    netlist, script = ordered_flip_flops(10)
    stated = script.partition("\nchange")[0] + "\n"
    return netlist, stated + "change d=1\nchange c=1\nchange d=0\nchange c=0\n" * n


FORK = "INPUT(a)\ng=XOR(a,a)\n"


def starts_of_chain(n):
    netlist, script = chain(100)
    return netlist, script * n


def orders_stated(n):
    """The last of them is stated twice."""
    return FORK, lines(n, lambda k: f"order g(1) g(2) {k}\n") + f"order g(1) g(2) {n}\n" + CHANGE


def orders_too_many(n):
    return FORK, lines(n, lambda k: f"order g(1) g(2) {k}\n") + CHANGE


def ideals_too_many(n):
    return FORK, "ideal g(1)\n" * n + CHANGE


def starts_too_many(n):
    return FORK, START * n


def order_number(n):
    return FORK, "order g(1) g(2) " + "1" * n + "\n" + CHANGE


def order_of_words(n):
    return FORK, "order " + "g(1) " * n + "\n" + CHANGE


def order_pin(n):
    return FORK, "order g(1) g(" + "1" * n + ")\n" + CHANGE


def orders_unknown(n):
    return FORK, lines(n, lambda k: f"order u{k}(1) u{k}(2)\n") + CHANGE


def orders_last_form(n):
    return FORK, lines(n, lambda k: f"order g(1) g(2) {k}\n") + CHANGE + "order g(1)"


# ---- run texts

RING = "INPUT(e)\ny = NAND(e, y)\n"
RING_HEAD = "runs 1\nstart e=0 y=1\ninput e=1\nrun\nstep e\nstep y(1)\n"


def ring_steps(n):
    return RING, RING_HEAD + "step y\nstep y(2)\n" * n + "end\n"


def ring_cycle(n):
    return RING, RING_HEAD + "cycle\n" + "step y\nstep y(2)\nstep y\nstep y(2)\n" * n + "end\n"


def runs_of_chain(n):
    """Short runs on a network of 2,000 variables."""
    return chain(999)[0], "runs 1\nstart" + "".join(f" g{k}=0" for k in range(1000)) + "\ninput g0=1\n" + "run\nstep g0\n" * n + "end\n"


def runs_and_size(n):
    """As many runs with a cycle as there are gates that stand still."""
    made = "INPUT(e)\ny=NAND(e,y)\n" + lines(n, lambda k: f"g{k}=NOT(e)\n")
    cycle = "run\ncycle\nstep y\nstep y(2)\nstep y\nstep y(2)\n"
    return made, "runs 1\nstart e=1 y=1" + lines(n, lambda k: f" g{k}=0") + "\ninput e=1\n" + cycle * n + "end\n"


def cycles_and_size(n):
    """As many cycles without a step as there are gates."""
    return chain(n)[0], "runs 1\nstart" + "".join(f" g{k}=0" for k in range(n + 1)) + "\ninput g0=0\n" + "run\ncycle\n" * n + "end\n"


def empty_runs(n):
    return RING, "runs 1\nstart e=0 y=1\ninput e=1\n" + "run\n" * n + "end\n"


def one_step(n):
    """One step of all gates of a star, and one of their wires."""
    names = [f"g{k}" for k in range(1, n + 1)]
    head = "runs 1\nstart a=0" + "".join(f" {name}=1" for name in names) + "\ninput a=1\nrun\nstep a\n"
    return star(n)[0], head + "step" + "".join(f" {name}(1)" for name in names) + "\nstep " + " ".join(names) + "\ncycle\nend\n"


def steps_of_star(n):
    names = [f"g{k}" for k in range(1, n + 1)]
    head = "runs 1\nstart a=0" + "".join(f" {name}=1" for name in names) + "\ninput a=1\nrun\nstep a\n"
    return star(n)[0], head + "".join(f"step {name}(1)\nstep {name}\n" for name in names) + "cycle\nend\n"


def steps_of_nand(n):
    """A NAND that drives n buffers oscillates n times, with a cycle at the end."""
    head = "runs 1\nstart a=0 y=1" + "".join(f" g{k}=1" for k in range(1, n + 1)) + "\ninput a=1\nrun\nstep a\nstep y(1)\n"
    return driving_nand(n)[0], head + "step y\nstep y(2)\n" * n + "end\n"


def steps_of_wide(n):
    """The pins of wide gates, one after the other."""
    head = "runs 1\nstart a=0" + "".join(f" g{k}=0" for k in range(1, n + 1)) + "\ninput a=1\nrun\nstep a\n"
    return wide(n)[0], head + "".join(f"step g{k}({pin})\nstep g{k}\n" for k in range(1, n + 1) for pin in range(1, 257)) + "end\n"


def repeated_variable(n):
    return RING, "runs 1\nstart e=0 y=1\ninput e=1\nrun\nstep" + " e" * n + "\nend\n"


def runs_last(last):
    return lambda n: (RING, RING_HEAD + "step y\nstep y(2)\n" * n + last)


def runs_start(n):
    return star(n)[0], "runs 2\nnet 1 %d %d\nstart a=0" % (n, n) + "".join(f" g{k}=1" for k in range(1, n + 1)) + "\ninput a=1\nend\n"


def runs_colliding(n):
    netlist, _ = colliding_listed(n)
    names = COLLIDING[:n]
    return netlist, "runs 1\nstart a=0" + "".join(f" {name}=1" for name in names) + "\ninput a=1\nrun\nstep a\n" + "".join(f"step {name}(1)\n" for name in names) + "end\n"


# ---- patterns

def patterned(n, netlist, inputs_count, head=""):
    choose = random.Random(9)
    bits = lambda: "".join(choose.choice("01") for _ in range(inputs_count))
    return netlist, head + "".join(f"from {bits()} to {bits()}\n" for _ in range(n))


def ladder_of(inputs_count, gates, with_outputs=True):
    made = "".join(f"INPUT(i{k})\n" for k in range(inputs_count))
    name = lambda k: f"i{k}" if k < inputs_count else f"g{k}"
    body = "".join(f"g{k}={'NAND' if k % 3 else 'XOR'}({name(k - inputs_count)},{name(k - 1)})\n" for k in range(inputs_count, inputs_count + gates))
    return made + (f"OUTPUT(g{inputs_count + gates - 1})\n" if with_outputs else "") + body


def patterns(n):
    return patterned(n, ladder_of(8, 30), 8)


def patterns_of_many(n):
    return patterned(1024, ladder_of(16, n), 16)


def patterns_of_inputs(n):
    return patterned(512, ladder_of(n, n), n)


def patterns_and_outputs(n):
    made = "INPUT(a)\nINPUT(b)\n" + lines(n, lambda k: f"OUTPUT(g{k})\n") + lines(n, lambda k: f"g{k}=AND(a,b)\n")
    return patterned(512, made, 2)


def patterns_of_latches(n):
    made = "INPUT(r)\nINPUT(s)\nOUTPUT(q1)\n" + lines(n, lambda k: f"q{k}=NOR(r,p{k})\np{k}=NOR(s,q{k})\n")
    return patterned(1024, made, 2)


def patterns_of_ring(n):
    return patterned(1024, "OUTPUT(g1)\n" + settled_ring(n)[0], 1)


def patterns_of_reversed_ring(n):
    return patterned(1024, "OUTPUT(g1)\n" + reversed_ring(n)[0], 1)


def patterns_both_ways(n):
    return patterned(1024, "OUTPUT(g1)\n" + both_ways(n)[0], 1)


def patterns_both_ways_reversed(n):
    return patterned(1024, "OUTPUT(g1)\n" + both_ways_reversed(n)[0], 1)


def held_both_ways(n, is_reversed=False):
    hold = "hold" + lines(n, lambda k: f" g{k}=0") + "\n"
    return patterned(1024, "OUTPUT(g1)\n" + (both_ways_reversed if is_reversed else both_ways)(n)[0], 1, hold)


def held_both_ways_reversed(n):
    return held_both_ways(n, True)


def held_two_chains(n):
    """Two chains of OR gates, each of which reads its neighbours, against the way of the change."""
    made = "".join(f"{c}{k}=OR({c}{k - 1},{c}{k + 1})\n" if k < n else f"{c}{k}=BUFF({c}{k - 1})\n" for k in range(n, 0, -1) for c in "gh")
    hold = "hold" + lines(n, lambda k: f" g{k}=0 h{k}=0") + "\n"
    return patterned(512, "INPUT(g0)\nINPUT(h0)\n" + made, 2, hold)


def held_reversed_chain(n):
    hold = "hold" + lines(n, lambda k: f" g{k}=0") + "\n"
    return patterned(1024, reversed_chain(n)[0], 1, hold)


def patterns_of_reversed_chain(n):
    return patterned(1024, reversed_chain(n)[0], 1)


def patterns_of_wide(n):
    return patterned(1024, wide(n)[0], 1)


def against_the_order(length, more):
    """A chain of OR gates in one loop, which stand so that each step of a wave along it goes back by 64 places, or far on. No wave
    goes through the gates `f`. It gives the chain, 256 pins for its last gates, and a hold. `more` names a further pin of a gate."""
    columns = length // 32
    placed = [k for column in range(columns) for k in range(columns - 1 - column, length, columns)]
    made = [f"g{k}=OR(f{k},g{k - 1}{more(k)})\nf{k}=AND(z,g{before})\n" for before, k in zip([placed[-1]] + placed, placed)]
    pins = ",".join(f"g{k}" for k in range(length - 256, length))
    return "INPUT(z)\nINPUT(g-1)\n" + "".join(reversed(made)), pins, "hold" + "".join(f" g{k}=0 f{k}=0" for k in range(length)) + "\n"


def waves(n):
    """512 waves, one after the other, into wide gates: each lane raises another six of twelve inputs."""
    taps = list(itertools.islice(itertools.combinations(range(12), 6), 512))
    chain, pins, hold = against_the_order(512 * n + 256, lambda k: "" if k % n or k >= 512 * n else f",t{k // n}")
    chain += lines(12, lambda k: f"INPUT(i{k - 1})\n")
    chain += "".join(f"t{j}=AND({','.join(f'i{i}' for i in tap)})\n" for j, tap in enumerate(taps))
    raised = ("".join("01"[i in tap] for i in range(12)) for tap in taps)
    return chain + lines(22 * n, lambda k: f"w{k}=XOR({pins})\n"), hold + "".join(f"from {'0' * 14} to 00{bits}\n" for bits in raised)


def one_wave(n):
    """One wave, of all lanes, into wide gates."""
    chain, pins, hold = against_the_order(256, lambda k: "")
    return chain + lines(n, lambda k: f"w{k}=XOR({pins})\n"), hold + "from 00 to 01\n" * 4096


def patterns_of_feedback(n):
    return patterned(1024, random_feedback(n)[0], 1)


def patterns_long_hold(n):
    return star(n)[0], "hold" + lines(n, lambda k: f" g{k}=1") + "\nfrom 0 to 1\n"


def hold_twice(n):
    return ONE, "hold" + " y=1" * n + "\nfrom 0 to 1\n"


def hold_unknown(n):
    return ONE, "hold" + lines(n, lambda k: f" u{k}=1") + "\nfrom 0 to 1\n"


def patterns_last(last):
    return lambda n: (ONE, "from 0 to 1\n" * n + last)


def patterns_spread(n):
    """Not as they are printed, so read statement by statement."""
    return ONE, "from  0  to 1  # c\n" * n


def patterns_word(n):
    return ONE, "from " + "0" * n + " to 1\n"


def patterns_comments(n):
    return ONE, "# c\n" * n


def patterns_open(n):
    return patterned(n, "INPUT(a)\nOUTPUT(y)\ny=OR(a,y)\n", 1)


def reading():
    """The texts of netlists, by `analyse`."""
    for name, make, least, status in (
            ("lines OUTPUT of one node", outputs, 180_000, 0),
            ("outputs of their own", own_outputs, 12_000, 0),
            ("comments", comments, 500_000, 0),
            ("one comment", long_comment, 2_000_000, 0),
            ("blanks", blanks, 2_000_000, 0),
            ("line feeds", line_feeds, 2_000_000, 0),
            ("one name", long_name, 2_000_000, 3),
            ("a gate of many pins", long_line, 600_000, 3),
            ("a line of words", line_of_words, 1_000_000, 3),
            ("a gate that is not closed", unclosed, 1_000_000, 3),
            ("a gate of undefined names", undefined_sources, 200_000, 3),
            ("too many gates", many_gates, 130_000, 3),
            ("too many gates that wait", waiting_gates, 130_000, 3),
            ("too many gates in no order", shuffled_gates, 130_000, 3),
            ("names chosen to collide", colliding_gates, 8_000, 0),
            ("one name defined again and again", twice, 200_000, 3),
            ("each name defined twice", all_twice, 60_000, 3),
            ("last line: form", last_form, 180_000, 3),
            ("last line: undefined", last_undefined, 12_000, 3),
            ("last line: undefined, too many", last_undefined, 120_000, 3),
            ("last line: kind", last_kind, 120_000, 3),
            ("last line: twice", last_twice, 120_000, 3),
            ("last line: name", last_name, 120_000, 3),
            ("last line: pins", last_pins, 120_000, 3)):
        yield Case("analyse", "bench: " + name, make, least, status)
    for name, make, least, status in (
            ("names of inputs", blif_inputs, 24_000, 4),
            ("too many names of inputs", blif_inputs, 250_000, 3),
            ("names chosen to collide", blif_colliding, 8_000, 4),
            ("rows of one cover", blif_rows, 400_000, 3),
            ("constant covers", blif_constants, 120_000, 0),
            ("a constant that is used", blif_used_constant, 120_000, 3),
            ("covers of two rows", blif_covers, 1_400, 0),
            ("a chain of covers", blif_chain, 12_000, 0),
            ("covers of 128 pins", blif_wide, 50, 0),
            ("covers of 64 rows, too many", blif_inverted, 800, 3),
            ("joined lines", blif_joined, 1_000_000, 0),
            ("words on joined lines", blif_joined_words, 600_000, 3),
            ("a line of words", blif_line, 1_000_000, 3),
            ("one name", blif_name, 2_000_000, 3),
            ("one name defined again and again", blif_twice, 900_000, 3),
            ("last line: form", blif_last_form, 80_000, 3),
            ("last line: construct", blif_last_construct, 80_000, 3),
            ("last line: undefined", blif_last_undefined, 80_000, 3),
            ("last line: cover", blif_last_cover, 80_000, 3)):
        yield Case("analyse", "blif: " + name, make, least, status, True)


CIRCUITS = (
    ("chain", chain, 12_000),
            ("chain against the order", reversed_chain, 12_000),
            ("one input read by all", star, 12_000),
            ("gates of 256 gates", collected, 8_000),
            ("gates of 256 pins", wide, 90),
    ("layers of 256 pins", wide_layers, 12),
            ("reconvergent chain", reconvergent, 6_000),
            ("ladder", ladder, 4_000),
            ("ladder against the order", reversed_ladder, 4_000),
            ("grid", grid, 8_000),
    ("random gates", random_gates, 8_000),
            ("random gates with feedback", random_feedback, 5_000),
            ("random gates that all read each other", random_nands, 5_000),
            ("gates that oscillate", oscillators, 8_000),
            ("ring that never settles", ring, 12_000),
            ("ring against the order", reversed_ring, 12_000),
    ("ring that settles", settled_ring, 12_000),
            ("all gates in one loop", both_ways, 8_000),
            ("all in one loop against the order", both_ways_reversed, 8_000),
            ("latches, critical", latches, 4_000),
    ("latches that settle", settled_latches, 4_000),
            ("latches in a row", latches_in_row, 4_000),
            ("NAND that drives buffers", driving_nand, 12_000), ("flip-flops in a row", flip_flops, 24_000),
    ("flip-flops of one node", flip_flops_of_one, 20_000),
            ("counter", counter, 3_000),
            ("inputs", inputs, 24_000),
            ("gates of two inputs", pairs, 5_000),
            ("names chosen to collide", colliding_listed, 8_000))


def analyses():
    """The circuits and the scripts, by `analyse`."""
    for name, make, least in CIRCUITS:
        yield Case("analyse", name, make, least)
    for name, make, least in (("ladder", ladder, 4_000),
            ("reconvergent chain", reconvergent, 6_000)):
        yield Case("analyse", name + ", all, cap 1000000", make, least, options=["--show", "all", "--cap", "1000000"])
    for name, make, least, status in (
            ("changes", changes, 1_250, 0),
            ("changes of a hundred latches", changes_of_many, 250, 0),
            ("changes after one that does not settle", changes_stopped, 1_250, 0),
            ("one name assigned again and again", same_assigned, 400_000, 4),
            ("names that are unknown", unknown_assigned, 150_000, 4),
            ("marks", marks, 2_000_000, 4),
            ("one word", script_word, 2_000_000, 4),
            ("comments", script_comments, 500_000, 0),
            ("last line: form", script_last_form, 1_250, 4),
            ("last line: bit", script_last_bit, 1_250, 4),
            ("last line: name", script_last_name, 1_250, 4),
            ("too many changes", script_too_many, 180_000, 4),
            ("an input without value", missing_input, 24_000, 4),
            ("a gate that is open", script_feedback_open, 12_000, 5)):
        yield Case("analyse", "script: " + name, make, least, status)


def edge_cases():
    """The circuits by `edges`, and some in which much moves behind feedback."""
    for name, make, least in CIRCUITS:
        yield Case("edges", name, make, least)
    for name, make, least in (("gates of 256 pins in one loop", ring_of_wide, 90),
            ("gates of 256 pins that all read each other", wide_nands, 90),
            ("random gates, pulses go back", pulses_back, 7_000)):
        yield Case("edges", name, make, least)
    yield Case("edges", "script: changes of a hundred latches", changes_of_many, 250)


def order_cases():
    """Scripts with assumptions of time, by `edges`."""
    for name, make, least, status in (
            ("one gate behind a chain", ordered_chain, 12_000, 0),
            ("one gate that waits for a chain", waiting_for_chain, 12_000, 0),
            ("an order that no run keeps", never_kept, 12_000, 0),
            ("flip-flops, one each", ordered_flip_flops, 125, 0),
            ("one gate of nine pins", orders_of_one_gate, 125, 0),
            ("gates of nine pins, one each", ordered_gates, 15, 0),
            ("gates of 256 pins, nine move", ordered_wide_gates, 1, 0),
            ("an ideal wire on a long chain", ideal_at_chain, 12_000, 0),
            ("256 ideal wires on a long chain", ideals_at_chain, 1_000, 0),
            ("more ideal wires on one chain", more_ideals, 32, 0),
            ("ideal wires into gates of 256 pins", ideals_of_wide, 4, 0),
            ("64 ideal wires at a ring", ideals_in_ring, 500, 0),
            ("changes of ten flip-flops", ordered_changes, 60, 0),
            ("starts of a chain", starts_of_chain, 125, 0),
            ("the last is stated twice", orders_stated, 124, 4),
            ("too many", orders_too_many, 60_000, 4),
            ("too many ideal wires", ideals_too_many, 100_000, 4),
            ("too many starts", starts_too_many, 100_000, 4),
            ("a long number", order_number, 1_000_000, 4),
            ("a line of wires", order_of_words, 300_000, 4),
            ("a long pin", order_pin, 1_000_000, 4),
            ("unknown wires", orders_unknown, 50_000, 4),
            ("last line: form", orders_last_form, 60_000, 4)):
        yield Case("edges", "orders: " + name, make, least, status)


def explorations():
    """Circuits by `explore`, with one change each, which leads to one state or to none."""
    for name, make, least in (
            ("chain", chain, 12_000),
            ("gates of 256 pins", wide, 90),
            ("ladder", ladder, 4_000),
            ("latches, critical", latches, 4_000),
            ("latches that settle", settled_latches, 4_000),
            ("random gates with feedback", random_feedback, 5_000),
            ("flip-flops in a row", flip_flops, 24_000)):
        yield Case("explore", name, make, least)


def replays():
    """Run texts, by `replay`, `convert` and `vcd`."""
    texts = (
        ("one long run", ring_steps, 60_000, 0),
            ("one long cycle", ring_cycle, 30_000, 0),
            ("short runs of 2,000 variables", runs_of_chain, 100_000, 0),
            ("as many runs as gates", runs_and_size, 6_000, 0),
        ("cycles without a step", cycles_and_size, 6_000, 0),
            ("empty runs", empty_runs, 500_000, 0),
            ("one step of all", one_step, 12_000, 0),
            ("a step for each gate", steps_of_star, 12_000, 0),
        ("NAND that drives buffers", steps_of_nand, 3_000, 0),
            ("pins of wide gates", steps_of_wide, 60, 0),
            ("a start of all", runs_start, 12_000, 0),
            ("names chosen to collide", runs_colliding, 8_000, 0))
    for job in ("replay", "convert", "vcd"):
        for name, make, least, status in texts:
            yield Case(job, name, make, least, 0 if job == "convert" else status)
    yield Case("replay", "a step that repeats a variable", repeated_variable, 200_000, 1)
    for name, last in (("form", "step (\n"),
            ("name", "step z\nend\n"),
            ("bit", "start e=2\nend\n"),
            ("order", "step y\n"),
            ("pin", "step y(3)\nend\n"),
            ("stable", "step e\nend\n")):
        yield Case("replay", "last line: " + name, runs_last(last), 60_000, 1 if name == "stable" else 4)


def pattern_cases():
    """Patterns, by `batch` and `reset`."""
    circuits = (
        ("patterns", patterns, 8_000, 0),
            ("gates", patterns_of_many, 2_000, 0),
            ("inputs", patterns_of_inputs, 1_000, 0),
            ("outputs", patterns_and_outputs, 1_000, 0),
            ("latches", patterns_of_latches, 1_000, 0),
        ("ring", patterns_of_ring, 2_000, 0),
            ("ring against the order", patterns_of_reversed_ring, 2_000, 0),
            ("all gates in one loop", patterns_both_ways, 2_000, 0),
            ("all in one loop against the order", patterns_both_ways_reversed, 2_000, 0),
        ("held: all in one loop", held_both_ways, 2_000, 0),
            ("held: all in one loop against the order", held_both_ways_reversed, 2_000, 0),
            ("held: two chains against the order", held_two_chains, 4_000, 0),
        ("held: chain against the order", held_reversed_chain, 2_000, 0),
            ("chain against the order", patterns_of_reversed_chain, 2_000, 0),
            ("gates of 256 pins", patterns_of_wide, 20, 0),
            ("waves into gates of 256 pins", waves, 1, 0),
            ("one wave into gates of 256 pins", one_wave, 80, 0),
            ("random gates with feedback", patterns_of_feedback, 1_000, 0),
        ("a hold of all gates", patterns_long_hold, 12_000, 0),
            ("a start that is open", patterns_open, 8_000, 0))
    for job in ("batch", "reset"):
        for name, make, least, status in circuits:
            yield Case(job, name, make, least, status)
    for name, make, least, status in (
            ("not as printed", patterns_spread, 8_000, 0),
            ("one word", patterns_word, 2_000_000, 4),
            ("comments", patterns_comments, 500_000, 0),
            ("hold: one name again and again", hold_twice, 400_000, 4),
            ("hold: unknown names", hold_unknown, 150_000, 4),
            ("too many", patterns_last(""), 150_000, 4),
            ("last line: form", patterns_last("from 0 to"), 8_000, 4),
            ("last line: bit", patterns_last("from 0 to 2\n"), 8_000, 4),
            ("last line: order", patterns_last("hold y=1\n"), 8_000, 4),
            ("last line: name", patterns_last("hold z=1\n"), 8_000, 4)):
        yield Case("batch", "text: " + name, make, least, status)


def splits():
    """Circuits by `split`. The NAND takes a flip of each buffer in every other turn, so it is not linear: MEASURED says why."""
    for name, make, least in (
            ("ring", ring, 500),
            ("ring against the order", reversed_ring, 500),
            ("latches, critical", latches, 4_000),
            ("latches that settle", settled_latches, 4_000),
            ("gates that oscillate", oscillators, 500),
            ("random gates that all read each other", random_nands, 500),
            ("all gates in one loop, settled", both_ways, 4_000),
            ("NAND that drives buffers", driving_nand, 100)):
        yield Case("split", name, make, least)


def cases():
    """All rows."""
    yield from reading()
    yield from analyses()
    yield from replays()
    yield from pattern_cases()
    yield from splits()
    yield from edge_cases()
    yield from order_cases()
    yield from explorations()
    yield Case("demo", "NUMBER", None, 2_000)
