"""What is for the eye alone, and for a terminal alone: colours, and a line that says how far a long job is."""
import os
import re
import sys
import time

# After so many seconds a job says how far it is, and then so often.
_QUIET, _EVERY = 2.0, 0.2
_COLOURS = ((re.compile(r"\b((maybe-)?static-[01]|(maybe-)?dynamic [01]-[01]|pulses? across the edge|not checked|not analysed)"), "33"),
            (re.compile(r"\b(unsettled|[1-9][0-9]* failed)\b"), "31"), (re.compile(r"(?<=: )(clean)(?=$|;)|(?<=left: )(none)$|\b(0 failed)$", re.M), "32"))


def painted(out):
    """The same output with colours, if it is a terminal and NO_COLOR is not set."""
    wanted = out.isatty() and not os.environ.get("NO_COLOR") and os.environ.get("TERM") != "dumb"
    return _Painted(out) if wanted else out


class _Painted:
    """An output that gives some words a colour."""

    def __init__(self, out):
        self.out = out

    def write(self, text):
        for words, colour in _COLOURS:
            text = words.sub(rf"\033[{colour}m\g<0>\033[0m", text)
        self.out.write(text)


class Progress:
    """A line on standard error, if that is a terminal, which is gone at the end."""

    def __init__(self, what):
        self.what, self.next, self.is_shown = what, time.monotonic() + _QUIET, False
        self.is_on = sys.stderr.isatty()

    def at(self, number):
        """Says that the job has come to a number."""
        if self.is_on and time.monotonic() >= self.next:
            self.next, self.is_shown = time.monotonic() + _EVERY, True
            sys.stderr.write(f"\r{self.what} {number} \033[K")
            sys.stderr.flush()

    def end(self):
        """Takes the line away."""
        if self.is_shown:
            sys.stderr.write("\r\033[K")
            sys.stderr.flush()
