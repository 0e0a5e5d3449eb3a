"""What readers ask, and where the pages answer it: a part of `tests/run`.

README links the page, or a page that README links does. The page has the heading, and the section below it the words of the answer. Every
link of a page leads to a file, and to a heading if it names one.
"""
import os
import re

ROOT = os.path.dirname(os.path.dirname(os.path.abspath(__file__)))
USING = "docs/USING.md"
PROVED = "docs/PROVED.md"
# the question, the page, the heading, and words of the answer
QUESTIONS = (
    # a designer
    ("Is a C element that is one cell a circuit for it?", USING, "1. Is my circuit one that it can judge?", "no: write it as gates"),
    ("How do I get gates from Verilog with flip-flops?", USING, "2. How do I get a netlist?", "hazard-look from-verilog top.v"),
    ("How do I list a start?", USING, "3. How do I list a start, and write changes?", "`start` must list every input"),
    ("How many changes is a clock edge?", USING, "4. How do I write a clock edge, and when is it two changes?", "An edge is **two changes**"),
    ("Does a `maybe-dynamic` clock pulse?", "README.md", "hazard", "more than one edge is not excluded"),
    ("What does `changes -` mean?", USING, "6. What is wrong, in a long report?", "`-`: not counted, since it depends on feedback"),
    ("How often may this node change, behind feedback too?", USING, "9. `change`: how often, behind feedback too?", "the run shows three edges of `qb`"),
    ("Which wire has to be slow for this pulse?", USING, "7. `static`: which wire against which path?", "The sentence is a condition that suffices"),
    ("How do I say that a fork is isochronic?", USING, "12. My circuit is right if this wire is not slow", "An ideal wire follows its source before anything else"),
    ("What do I do after `unsettled` or `stopped`?", USING, "How do I go on?", "Write a script for each outcome"),
    ("What do I write in place of a line that is refused?", USING, "What is refused in a netlist", "| `z = INV(a)`, `z = MUX(s, a, b)` |"),
    ("Which status fails my CI?", USING, "14. How do I keep it as a regression test?", "The status is 0 if all hold"),
    ("How large may a circuit be, and how long does it take?", "README.md", "The jobs", "at most 200,000 variables"),
    # a programmer who is new here
    ("How long does the gate take?", "README.md", "Two commands", "| the gate: every proof"),
    ("Where do I add a fault?", "docs/CHANGING.md", "3. A fault of a text", "`TextFault` with `line`"),
    ("How do I prove one function?", "docs/CHANGING.md", "The order of work that pays", "`rt check --only MODULE::NAME`"),
    ("Which crate does what, and when?", "docs/ARCHITECTURE.md", "How a byte goes through it", "`work_on_files` loads the first file"),
    ("What do I do if a proof stalls?", "docs/PROOFS.md", "Proofs: recipes", "another form of the code, or a lemma"),
    # a reader of proofs
    ("What is trusted?", PROVED, "What is trusted", "The toolchain with its libraries"),
    ("What is not proved?", PROVED, "Not proved", "the number is an upper bound"),
    ("What must I read to believe it?", PROVED, "What must be read to believe it", "| the headline |"),
    ("What is a nontransient cycle?", "docs/DEFINITIONS.md", "Algorithm B, cycles, outcomes", "Any other cycle is **nontransient**"),
)


def read(page):
    with open(os.path.join(ROOT, page), encoding="utf-8") as file:
        return file.read()


def sections(page):
    """The text below each heading, up to the next one, by heading."""
    text = re.sub(r"^```.*?^```$", lambda block: block[0].replace("\n#", "\n #"), read(page), flags=re.S | re.M)
    parts = re.split(r"^#+ (.*)$", text, flags=re.M)
    return dict(zip(parts[1::2], parts[2::2]))


def anchor(heading):
    return re.sub(r"[^\w -]", "", heading.lower()).replace(" ", "-")


def links(page):
    """The files and the anchors to which a page leads within the repository."""
    folder = os.path.dirname(page)
    for target in re.findall(r"\]\(([^)\s]+)\)", read(page)):
        if "://" not in target:
            name, _, place = target.partition("#")
            yield os.path.normpath(os.path.join(folder, name)) if name else page, place


def pages_near():
    """README, the pages that it links, and those that they link."""
    near = {"README.md"}
    for _ in range(2):
        near |= {name for page in near if page.endswith(".md") for name, _ in links(page)}
    return near


def questions(folder):
    near = pages_near()
    for question, page, heading, answer in QUESTIONS:
        text = sections(page).get(heading)
        yield f"{question} {page} is near", page in near, True
        yield f"{question} {page}: {heading}", answer in " ".join((text or "").split()), True
    for page in sorted(name for name in near if name.endswith(".md")):
        for name, place in links(page):
            found = os.path.exists(os.path.join(ROOT, name))
            yield f"{page}: {name}#{place}", found and (not place or place in map(anchor, sections(name))), True
