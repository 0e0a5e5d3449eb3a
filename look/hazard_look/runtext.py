"""Run texts: read from a report, and written for `hazard replay`."""
from typing import Dict, List, NamedTuple, Optional

from .lines import assignments, spelt

Step = List[str]


class Run(NamedTuple):
    """A run: its steps, each a list of variables, and the steps of the cycle at its end, if it has one."""

    lead: List[Step]
    cycle: Optional[List[Step]]


class RunText(NamedTuple):
    """The head of a run text (its format, and its sizes in format 2), the start, the new input, the runs."""

    head: List[str]
    start: Dict[str, int]
    target: Dict[str, int]
    runs: List[Run]

    def of(self, runs):
        """The same head, start and input with other runs."""
        return self._replace(runs=runs)

    def text(self):
        """The text that `hazard replay` reads."""
        lines = self.head + ["start" + spelt(self.start), "input" + spelt(self.target)]
        for run in self.runs:
            lines += ["run"] + [" ".join(["step"] + step) for step in run.lead]
            if run.cycle is not None:
                lines += ["cycle"] + [" ".join(["step"] + step) for step in run.cycle]
        return "\n".join(lines + ["end"]) + "\n"


def read(lines):
    """The run text of a report's lines, from `runs` to `end`."""
    at, text = _head(lines)
    runs, steps = [], []
    for line in lines[at + 2:-1]:
        word, *step = line.split()
        if word == "step":
            steps.append(step)
            continue
        steps = []
        if word == "run":
            runs.append(Run(steps, None))
        else:
            runs[-1] = runs[-1]._replace(cycle=steps)
    return text.of(runs)


def head(lines):
    """The same without its runs, which may be long."""
    return _head(lines)[1]


def _head(lines):
    """The place of the start, and the run text without runs."""
    at = next(number for number, line in enumerate(lines) if line.startswith("start"))
    return at, RunText(lines[:at], assignments(lines[at].split()[1:]), assignments(lines[at + 1].split()[1:]), [])
