"""The cells of yosys' gate library: those that are a gate of .bench, and the gates of the others.

In an expansion a capital letter is a pin of the cell, and a small word an inner node; `Q` or `Y` is the cell's output. A comment
has a pin in braces.
"""
import re
from typing import List, NamedTuple

GATES = {"$_AND_": "AND", "$_NAND_": "NAND", "$_OR_": "OR", "$_NOR_": "NOR", "$_XOR_": "XOR", "$_XNOR_": "XNOR",
         "$_NOT_": "NOT", "$_BUF_": "BUFF"}
_COMPOUND = {
    "$_ANDNOT_": "n = NOT(B); Y = AND(A, n)",
    "$_ORNOT_": "n = NOT(B); Y = OR(A, n)",
    "$_MUX_": "n = NOT(S); a = AND(A, n); b = AND(B, S); Y = OR(a, b)",
    "$_NMUX_": "n = NOT(S); a = AND(A, n); b = AND(B, S); Y = NOR(a, b)",
    "$_AOI3_": "a = AND(A, B); Y = NOR(a, C)",
    "$_OAI3_": "a = OR(A, B); Y = NAND(a, C)",
    "$_AOI4_": "a = AND(A, B); b = AND(C, D); Y = NOR(a, b)",
    "$_OAI4_": "a = OR(A, B); b = OR(C, D); Y = NAND(a, b)",
}
_MUX_REMARK = "as gates without a cover: it may glitch where the cell doesn't"
_LATCH_REMARK = "as the gates of a latch with a cover, which holds its bit with any delays"
# Flip-flops and latches: the letters of their types say whether a pin acts by P (1, a rising edge) or N (0, a falling edge), and
# the digit is the value of a reset.
_FLIP_FLOP = re.compile(r"\$_(DFF|DFFE|SDFF|SDFFE|SDFFCE)_([NP])(?:([NP])([01]))?([NP])?_$")
_LATCH = re.compile(r"\$_DLATCH_([NP])(?:([NP])([01]))?_$")
_SET_RESET = re.compile(r"\$_SR_([NP])([NP])_$")


class Part(NamedTuple):
    """A gate of an expansion, or a flip-flop, whose kind is `DFF`."""

    name: str
    kind: str
    sources: List[str]
    comment: str = ""


class Expansion(NamedTuple):
    """The gates of a cell, a remark on them, and whether they hold a bit in a loop."""

    gates: List[Part]
    remark: str = ""
    is_latch: bool = False

    @property
    def output(self):
        """The pin that the cell drives."""
        return "Q" if any(gate.name == "Q" for gate in self.gates) else "Y"

    @property
    def inner(self):
        """The nodes of the expansion that are no pins."""
        return [gate.name for gate in self.gates if gate.name.islower()]


def expansion_of(kind):
    """The expansion of a cell of this type, or None."""
    if kind in _COMPOUND:
        return Expansion(_parts(_COMPOUND[kind]), _MUX_REMARK if "MUX" in kind else "")
    for form, expand in ((_LATCH, _latch), (_SET_RESET, _set_reset), (_FLIP_FLOP, _flip_flop)):
        letters = form.match(kind)
        if letters:
            return expand(*letters.groups())
    return None


def _parts(text):
    """The gates of a text `name = KIND(source, ..); ..`."""
    for_each = (re.match(r"(\w+) = (\w+)\((.*)\)$", part).groups() for part in text.split("; "))
    return [Part(name, kind, sources.split(", ")) for name, kind, sources in for_each]


def _latch(enable, reset, value):
    """A latch that is open while its enable acts; a reset acts on its output."""
    open_, closed = ("E", "n") if enable == "P" else ("n", "E")
    out = "Q" if reset is None else "d"
    gates = _parts(f"n = NOT(E); load = AND(D, {open_}); hold = AND(Q, {closed}); cover = AND(D, Q)")
    gates += _parts(f"{out} = OR(load, hold, cover)")
    return Expansion(gates + _reset_by("R", reset, value, "d", "Q"), _LATCH_REMARK, True)


def _reset_by(pin, acts, value, source, target):
    """The gates by which a reset makes a target of a source: none without a reset."""
    if acts is None:
        return []
    if value == "0":
        return _parts((f"r = NOT({pin}); " if acts == "P" else "") + f"{target} = AND({source}, {'r' if acts == 'P' else pin})")
    return _parts((f"r = NOT({pin}); " if acts == "N" else "") + f"{target} = OR({source}, {'r' if acts == 'N' else pin})")


def _set_reset(set_, reset):
    """A set-reset latch of two NOR gates."""
    turned = [f"{name} = NOT({pin})" for name, pin, acts in (("s", "S", set_), ("r", "R", reset)) if acts == "N"]
    gates = turned + [f"Q = NOR({'R' if reset == 'P' else 'r'}, q)", f"q = NOR({'S' if set_ == 'P' else 's'}, Q)"]
    return Expansion(_parts("; ".join(gates)), "as two NOR gates", True)


def _flip_flop(family, clock, reset, value, enable):
    """A flip-flop, cut. What decides its next value are gates before it; an asynchronous reset acts on its output as well."""
    if family == "DFFE" and enable is None:
        reset, value, enable = None, None, reset
    comment = "  # clock {C} " + ("rising" if clock == "P" else "falling")
    asynchronous = reset is not None and family in ("DFF", "DFFE")
    held = "q" if asynchronous else "Q"
    gates, data = [], "D"
    for step in ("reset", "enable") if family == "SDFFCE" else ("enable", "reset"):
        if step == "enable" and enable is not None:
            acts, rests = ("E", "e") if enable == "P" else ("e", "E")
            gates += _parts(f"e = NOT(E); load = AND({data}, {acts}); hold = AND({held}, {rests}); next = OR(load, hold)")
            data = "next"
        elif step == "reset" and reset is not None:
            gates += _reset_by("R", reset, value, data, "d")
            data = "d"
    if not asynchronous:
        return Expansion(gates + [Part("Q", "DFF", [data], comment)], "cut")
    comment += f", reset {{R}}={1 if reset == 'P' else 0} to {value}"
    gates += [Part("q", "DFF", [data], comment)] + _reset_by("R", reset, value, "q", "Q")[-1:]
    return Expansion(gates, "cut, and its reset acts on the output as well")
