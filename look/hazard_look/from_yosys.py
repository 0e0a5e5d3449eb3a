"""The job `from-yosys`: a netlist from what yosys' `write_json` gives after `synth`, with its gates, names and loops.

A gate of yosys stays a gate. A cell of several gates becomes its gates, each with a delay of its own, under a comment that names
the cell. A flip-flop is cut. What can't be translated is refused by name.
"""
import json
import re

from . import netlist
from .cells import GATES, expansion_of
from .errors import DONE, NETLIST_FAULT, Failure, read_file, say
from .join import joined
from .start import line

_NOT_IN_NAMES = re.compile(r"[^!-~]|[(),=#]")
# What `rename -enumerate` calls a node that the source text does not name.
_ENUMERATED = re.compile(r"_\d+_$")
# Where a cell comes from, up to the column.
_PLACE = re.compile(r"([^\s#|]+:[1-9][0-9]*)\b")
# What reading a part of another shape raises.
_STRANGE = (AttributeError, IndexError, KeyError, RecursionError, TypeError, ValueError)
# Cells that are no circuit.
_SILENT = ("$scopeinfo",)


def run(words, out):
    """Writes the netlist of a design to `out`, and the first line of a script to standard error."""
    return write(read_file(words.design), words, words.design, out)


def write(text, words, name, out):
    """Writes the netlist of a design in a text; `name` is what it is called in messages."""
    try:
        design = _Design(_module(json.loads(text)["modules"], words, name))
        netlist_text = design.text(words.join)
    except _STRANGE as fault:
        hint = "; `hazard-look from-verilog` reads Verilog" if name.lower().endswith((".v", ".sv")) else ""
        raise Failure(f"{name}: not what `write_json` of yosys writes{hint}", NETLIST_FAULT) from fault
    if not netlist_text.strip():
        raise Failure(f"{name}: the module has neither ports nor cells", NETLIST_FAULT)
    out.write(netlist_text)
    say(design.start_line(netlist.read(netlist_text)))
    return DONE


def _module(modules, words, name):
    """The module to take."""
    tops = [top for top, module in modules.items() if int(module.get("attributes", {}).get("top", "0"), 2)]
    if not modules:
        raise Failure(f"{name}: the design has no module", NETLIST_FAULT)
    chosen = [words.top] if words.top else tops or list(modules)
    if len(chosen) != 1 or chosen[0] not in modules:
        raise Failure(f"{name}: name one of its modules by --top: {', '.join(modules)}", NETLIST_FAULT)
    return modules[chosen[0]]


class _Design:
    """A module whose bits get names. What can't be translated is gathered, and refused as a whole."""

    def __init__(self, module):
        self.module = module
        self.used, self.name_of, self.faults = set(), {}, []
        self.constants = {}
        self.initial, self.latches = {}, []
        self.unnamed, self.plain = set(), set()
        self._name_bits()

    def _name_bits(self):
        """The name of each bit: that of an input, else of an output, else another of the source text, else yosys' own."""
        ports = {name: port["direction"] for name, port in self.module["ports"].items()}
        is_hidden = lambda name, net: bool(net.get("hide_name", 0) or _ENUMERATED.match(name))
        rank = lambda item: (("input", "output").index(ports[item[0]]) if ports.get(item[0]) in ("input", "output") else 2,
                             is_hidden(*item))
        for name, net in sorted(self.module["netnames"].items(), key=rank):
            init = net.get("attributes", {}).get("init", "")
            for place, bit in enumerate(net["bits"]):
                if isinstance(bit, int) and bit not in self.name_of:
                    self.name_of[bit] = self.fresh(_bit_name(name, net, place))
                    self.unnamed |= {self.name_of[bit]} if is_hidden(name, net) else set()
                if init[::-1][place:place + 1] in ("0", "1"):
                    self.initial[bit] = init[::-1][place]

    def fresh(self, name):
        """A name that .bench can hold and that no node has yet."""
        name = plain = _NOT_IN_NAMES.sub("_", name)
        number = 1
        while name in self.used:
            number += 1
            name = f"{plain}_{number}"
        self.used.add(name)
        return name

    def node(self, bit, reader):
        """The node that a bit is. A constant is an input, which the script holds."""
        if bit in ("0", "1") and bit not in self.constants:
            self.constants[bit] = self.fresh(f"const{bit}")
        if bit in self.constants:
            return self.constants[bit]
        if bit in self.name_of:
            return self.name_of[bit]
        self.faults.append(f"{reader} reads {bit}, which is no value")
        return "x"

    def text(self, join=False):
        """The text of the netlist. `join` makes gates one again that yosys split."""
        ports = self.module["ports"].items()
        inputs = [bit for _, port in ports if port["direction"] == "input" for bit in port["bits"]]
        self.faults += [f"port {name} is an inout" for name, port in ports if port["direction"] == "inout"]
        cells = [line for name, cell in self.module["cells"].items() for line in self._cell(name, cell)]
        outputs = [line for name, port in ports if port["direction"] == "output" for line in self._output(name, port)]
        lines = [f"INPUT({self.name_of[bit]})" for bit in inputs]
        lines += [f"INPUT({name})  # always {bit}" for bit, name in sorted(self.constants.items())]
        lines += outputs + (list(self._joined(cells, netlist.read("\n".join(outputs + cells)))) if join and not self.faults else cells)
        self._refuse_undriven(lines)
        return "\n".join(lines) + "\n"

    def _joined(self, cells, circuit):
        """The lines of the cells after `join`. A gate of a cell of several gates stays, and so does what it reads."""
        read = {source for gate in circuit.gates if gate.name not in self.plain for source in gate.sources}
        fixed = set(circuit.nodes) - self.unnamed | read | set(circuit.outputs) | {cut.data for cut in circuit.cuts}
        left = {gate.name: gate for gate in joined([gate for gate in circuit.gates if gate.name in self.plain], fixed)}
        for line in cells:
            name = line.partition(" = ")[0]
            if name not in self.plain:
                yield line
            elif name in left:
                yield f"{name} = {left[name].kind}({', '.join(left[name].sources)})" + line[line.index(")") + 1:]

    def _output(self, name, port):
        """The lines of an output port. A bit that has the name of another port is said to be that one."""
        for place, bit in enumerate(port["bits"]):
            node, own = self.node(bit, f"output {name}"), _bit_name(name, self.module["netnames"].get(name, port), place)
            yield f"OUTPUT({node})" + ("" if node == own else f"  # {own} of the design")

    def _cell(self, name, cell):
        """The lines of a cell, each with its place in the source text."""
        kind, pins = cell["type"], cell["connections"]
        place = _PLACE.match(cell.get("attributes", {}).get("src", ""))
        end = f"  # {place[1]}" if place else ""
        if kind in _SILENT:
            return
        if kind in GATES:
            sources = [self.node(pins[pin][0], f"cell {name}") for pin in ("A", "B") if pin in pins]
            output = self.node(pins["Y"][0], name)
            self.plain.add(output)
            yield f"{output} = {GATES[kind]}({', '.join(sources)})" + end
            return
        expansion = expansion_of(kind)
        if expansion is None:
            hint = "" if kind.startswith("$_") else "; call `flatten` and `synth` first"
            self.faults.append(f"cell {name}: {kind} is not translated{hint}")
            return
        for row in self._expanded(name, kind, pins, expansion):
            yield row if row.startswith("#") else row + end

    def _expanded(self, name, kind, pins, expansion):
        """The lines of a cell of several gates: its pins are in capitals, its inner nodes are named after its output."""
        named = {pin: self.node(bits[0], f"cell {name}") for pin, bits in pins.items()}
        output = named[expansion.output]
        for inner in expansion.inner:
            named[inner] = self.fresh(f"{output}.{inner}")
        yield f"# {output}: the cell {kind}" + (f", {expansion.remark}" if expansion.remark else "")
        for gate in expansion.gates:
            sources = ", ".join(named[source] for source in gate.sources)
            yield f"{named[gate.name]} = {gate.kind}({sources})" + gate.comment.format_map(named)
        if expansion.is_latch:
            self.latches.append(output)
        for cut in (gate.name for gate in expansion.gates if gate.kind == "DFF"):
            if pins[expansion.output][0] in self.initial:
                self.initial[named[cut]] = self.initial[pins[expansion.output][0]]

    def _refuse_undriven(self, lines):
        """Refuses cells, and then bits that nothing or more than one cell drives."""
        circuit = netlist.read("\n".join(lines)) if not self.faults else netlist.Netlist([], [], [], [])
        driven, twice = set(), set()
        for node in circuit.nodes:
            (twice if node in driven else driven).add(node)
        read = {source for gate in circuit.gates for source in gate.sources} | {cut.data for cut in circuit.cuts}
        self.faults += [f"{node} is driven twice" for node in sorted(twice)]
        self.faults += [f"{node} is driven by nothing" for node in sorted((read | set(circuit.outputs)) - driven)]
        if self.faults:
            raise Failure("\n".join(self.faults), NETLIST_FAULT)

    def start_line(self, circuit):
        """A script's first line: the inputs, the flip-flops and a gate of each loop; `?` for what is not known."""
        known = {self.name_of.get(bit, bit): value for bit, value in self.initial.items()}
        known.update((name, bit) for bit, name in self.constants.items())
        return line(circuit, known, self.latches)


def _bit_name(name, net, place):
    """The name of a bit of a net, as the source text has it."""
    if len(net["bits"]) == 1 and not net.get("offset"):
        return name
    index = len(net["bits"]) - 1 - place if net.get("upto") else place
    return f"{name}[{index + net.get('offset', 0)}]"
