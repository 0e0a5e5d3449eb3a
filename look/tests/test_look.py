"""The parts of `run` for pytest, if somebody has it; and random circuits that shrink, if hypothesis is there too.

    pytest look/tests

`look/tests/run` needs neither.
"""
import importlib.machinery
import importlib.util
import os
import random

import pytest

HERE = os.path.dirname(os.path.abspath(__file__))
_loader = importlib.machinery.SourceFileLoader("look_tests", os.path.join(HERE, "run"))
tests = importlib.util.module_from_spec(importlib.util.spec_from_loader("look_tests", _loader))
_loader.exec_module(tests)
sentences = tests.sentences


@pytest.mark.parametrize("part", tests.PARTS, ids=lambda part: part.__name__)
def test_part(part, tmp_path):
    """Each row of a part has what is wanted."""
    wrong = [(name, found, wanted) for name, found, wanted in part(str(tmp_path)) if found != wanted]
    assert not wrong


try:
    from hypothesis import given, settings, strategies as some
except ImportError:
    pass
else:
    @some.composite
    def circuits(draw):
        """A circuit of three inputs without loops, a start, and a change."""
        names, rows = ["a", "b", "c"], []
        for at in range(draw(some.integers(1, 9))):
            kind = draw(some.sampled_from(["AND", "OR", "NAND", "NOR", "XOR", "NOT"]))
            pins = draw(some.lists(some.sampled_from(names), min_size=1 if kind == "NOT" else 2, max_size=1 if kind == "NOT" else 3))
            rows.append(f"g{at} = {kind}({', '.join(pins)})")
            names.append(f"g{at}")
        start = [draw(some.integers(0, 1)) for _ in "abc"]
        changed = draw(some.lists(some.sampled_from("abc"), min_size=1, unique=True))
        script = "start" + "".join(f" {name}={bit}" for name, bit in zip("abc", start))
        script += "\nchange" + "".join(f" {name}={1 - start['abc'.index(name)]}" for name in changed) + "\n"
        return "".join(f"INPUT({name})\n" for name in "abc") + "\n".join(rows) + "\n", script

    @settings(max_examples=60, deadline=None, database=None)
    @given(circuits())
    def test_sentences_of_small_circuits(tmp_path_factory, made):
        """With delays that satisfy a sentence the node does what it says."""
        folder = str(tmp_path_factory.mktemp("circuit"))
        files = [tests.write(folder, name, text) for name, text in zip(("h.bench", "h.txt"), made)]
        for case in sentences._cases(tests.hazard(), files):
            for delay in sentences._assignments(case, random.Random(1), 5):
                assert case.holds(*sentences._timed(case.searcher.follower, case.node, delay))
