"""What ends a job before it is done, the statuses that go with it, and what is said on standard error."""
import os
import sys

DONE = 0
DOES_NOT_HOLD = 1
WRONG_WORDS = 2
NETLIST_FAULT = 3
SCRIPT_FAULT = 4
FILE_NOT_READ = 6
OUTPUT_FAILED = 8
NAME_NOT_READ = 10
NOT_ACCEPTED = 70
OWN_FAULT = 70
NO_PROGRAM = 127
SIGNALLED = 128
INTERRUPTED = 130


class Failure(Exception):
    """Lines for standard error, and the status that the command ends with."""

    def __init__(self, lines, status):
        super().__init__(lines)
        self.status = status


def say(line):
    """Writes a line on standard error. If nobody reads it, that changes neither the answer nor the status."""
    try:
        sys.stderr.write(line + "\n")
        sys.stderr.flush()
    except OSError:
        os.dup2(os.open(os.devnull, os.O_WRONLY), sys.stderr.fileno())


def read_file(path):
    """The text of a file. A byte that is no text may only stand in a comment, so it is replaced."""
    try:
        with open(path, encoding="utf-8", errors="replace", newline="") as file:
            return file.read()
    except OSError as fault:
        raise Failure(f"{path}: {fault.strerror or fault}", FILE_NOT_READ) from fault


def begins_with_mark(path):
    """Whether a file begins with a byte order mark, of UTF-8 or of UTF-16, as some editors write it."""
    try:
        with open(path, "rb") as file:
            return file.read(3).startswith((b"\xef\xbb\xbf", b"\xff\xfe", b"\xfe\xff"))
    except OSError:
        return False


def must_be_plain(path):
    """Fails for a pipe or a device, which can be read once: `hazard` and this program both read each file. What is wrong with a path
    that names nothing, or a folder, `hazard` says."""
    if os.path.exists(path) and not os.path.isfile(path) and not os.path.isdir(path):
        raise Failure(f"{path}: not a plain file; it is read more than once, so a pipe can't stand for it", FILE_NOT_READ)
