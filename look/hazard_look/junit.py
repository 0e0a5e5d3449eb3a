"""What `expect` has checked as JUnit's XML, which CI systems show as tests: one for each expectation in each change or edge.

A test that fails has the line that `expect` writes of it; one that could not be checked is an error.
"""
import re
from xml.sax.saxutils import quoteattr

# What XML can't have, in any spelling.
_STRANGE = re.compile("[^\t\n\r\x20-\ud7ff\ue000-\ufffd\U00010000-\U0010ffff]")


def text(words, tally):
    """The document of a tally."""
    counts = _attributes(tests=tally.all, failures=tally.failed, errors=tally.not_checked, skipped=0)
    lines = ['<?xml version="1.0" encoding="UTF-8"?>', f"<testsuites{counts}>", f"<testsuite{_attributes(name=words.script)}{counts}>"]
    for finding in tally.cases:
        lines += _case(words, finding)
    made = "\n".join(lines + ["</testsuite>", "</testsuites>"]) + "\n"
    return made.encode("ascii", "xmlcharrefreplace").decode("ascii")


def _case(words, finding):
    """The lines of a test."""
    name = f"line {finding['line']}, change {finding['change']}: {finding['expectation']}"
    head = "<testcase" + _attributes(classname=words.netlist, name=name, file=finding["file"], line=finding["line"])
    if not finding["remark"]:
        return [head + "/>"]
    place = f" ({finding['netlist']})" if finding["netlist"] else ""
    if finding["holds"]:
        return [head + ">", f"<properties><property{_attributes(name='remark', value=finding['remark'])}/></properties>", "</testcase>"]
    what = "error" if finding["holds"] is None else "failure"
    return [head + ">", f"<{what}{_attributes(message=finding['remark'] + place)}/>", "</testcase>"]


def _attributes(**values):
    return "".join(f" {name}={quoteattr(_STRANGE.sub(chr(0xfffd), str(value)))}" for name, value in values.items())
