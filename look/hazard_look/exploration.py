"""The text of `hazard explore`, read state by state: what each burst of a script does in each state that bursts reach."""
from typing import Dict, Iterator, List, NamedTuple, Optional, Sequence

from .lines import assignments
from .report import CLASSES

MORE = "more"
# Behind this word stand the numbers of the assumptions that a change uses, and behind them, if no run is printed that keeps these, two words.
_USED, _NOT_SHOWN = "used", ["not", "shown"]


class Transition(NamedTuple):
    """A burst in a state: the number of the state in which it settles, None if that one has no number; how many nodes have each class;
    or the variable that it leaves unsettled; the numbers of the assumptions that it uses, and whether some run is known to keep them."""

    state: int
    burst: Dict[str, int]
    target: Optional[int]
    counts: Dict[str, int]
    unsettled: Optional[str]
    used: Sequence[int] = ()
    kept: bool = True

    def hazards(self):
        """How many nodes have each class that is not clean."""
        return {kind: count for kind, count in self.counts.items() if count and kind != "single"}

    def is_clean(self):
        return self.unsettled is None and not self.hazards() and self.kept


class State(NamedTuple):
    """A state: its number, the values of all nodes, and its transitions, in the order of the bursts."""

    number: int
    values: Dict[str, int]
    transitions: List[Transition]


class Totals(NamedTuple):
    """The last line: whether all states were found that bursts reach, and how many states and changes there are of each kind."""

    is_whole: bool
    states: int
    changes: int
    clean: int
    hazards: int
    unsettled: int


class Exploration(NamedTuple):
    """The completed start; and the states, which can be gone through once, and behind them the totals."""

    start: Dict[str, int]
    rows: Iterator


def read(lines):
    """The exploration of some lines, whose head is read at once."""
    lines = iter(lines)
    words = next(lines).split()
    while words[0] != "start":
        words = next(lines).split()
    return Exploration(assignments(words[1:]), _rows(lines))


def _rows(lines):
    """Each state, and then the totals."""
    state = None
    for line in lines:
        word, *words = line.split()
        if word.isdigit():
            state.transitions.append(_transition(int(word), words))
            continue
        if state:
            yield state
        if word != "state":
            # the program may end badly even so
            if list(lines):
                raise ValueError("lines behind the last one")
            yield Totals(word == "all", *map(int, words[1::2]))
            return
        state = State(int(words[0]), assignments(words[1:]), [])
    raise ValueError("no last line")


def _transition(state, words):
    """The transition of a line, without the number of its state."""
    begin = 1 if words[0] == "unsettled" else 2
    end = next((at for at in range(begin, len(words)) if "=" not in words[at]), len(words))
    burst, rest = assignments(words[begin:end]), words[end:]
    told, used = (rest[:1], rest[1:]) if begin == 1 else _counted(rest)
    kept = used[-2:] != _NOT_SHOWN
    numbers = tuple(map(int, used[1:] if kept else used[1:-2]))
    if used and used[0] != _USED:
        raise ValueError(f"strange words {used}")
    if begin == 1:
        return Transition(state, burst, None, {}, told[0], numbers, kept)
    return Transition(state, burst, None if words[1] == MORE else int(words[1]), told, None, numbers, kept)


def _counted(words):
    """How many nodes have each class, and the words behind that."""
    found = {}
    while len(words) > 1 and words[0] in CLASSES:
        found[words[0]] = int(words[1])
        words = words[2:]
    return found, words
