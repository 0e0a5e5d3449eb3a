"""A run as a waveform in text."""
from typing import NamedTuple

LEGEND = "~ is 1, _ is 0, - waits: the value before, though the variable is unstable"
# How many steps stand side by side.
STEPS_A_BLOCK = 40


class Wave(NamedTuple):
    """A variable along a run: the values in its states, and whether it is unstable there."""

    name: str
    values: list
    unstable: list

    def tells(self):
        """Whether the variable moves or waits."""
        return len(set(self.values)) > 1 or any(self.unstable)


def waves(follower, steps, variables, begin=0):
    """The waves of some variables along a run from one of its states on; the follower is where it was."""
    found = {variable: Wave(follower.network.names[variable], [], []) for variable in variables}
    kept = follower.kept()
    follower.flip_all(steps[:begin])
    for step in [[]] + steps[begin:]:
        follower.flip_all([step])
        for variable, wave in found.items():
            wave.values.append(follower.value[variable])
            wave.unstable.append(follower.is_unstable(variable))
    follower.back_to(kept)
    return list(found.values())


def drawn(rows, before=0):
    """The lines of some waves, a block after the other, under the numbers of the steps, of which some stand before. A step is an
    edge or a level, and the state after it. Of several blocks each has the last row, and those that move in it."""
    width = max(len(row.name) for row in rows)
    steps = len(rows[0].values) - 1
    for begin in range(0, max(steps, 1), STEPS_A_BLOCK):
        places = range(begin + 1, min(begin + STEPS_A_BLOCK, steps) + 1)
        yield (" " * (width + 2) + "".join(_labels([before + place for place in places], before + steps))).rstrip()
        for row in rows:
            if steps <= STEPS_A_BLOCK or row is rows[-1] or any(row.values[at] != row.values[at - 1] for at in places):
                yield f"{row.name:<{width}} {_level(row, begin)}" + "".join(_step(row, place) for place in places)


def _labels(numbers, last):
    """The numbers of steps, of three characters each; each second one if some number needs three itself."""
    if last < 100:
        return [f"{number:>3}" for number in numbers]
    return [f"{number:>6}" for number in numbers[1::2]]


def _level(row, at):
    return "-" if row.unstable[at] else "_~"[row.values[at]]


def _step(row, at):
    """Three characters: two for the step into a state, one for the state."""
    before, level = _level(row, at - 1), _level(row, at)
    if row.values[at] == row.values[at - 1]:
        return before + before + level
    return before + ("/" if row.values[at] else "\\") + level
