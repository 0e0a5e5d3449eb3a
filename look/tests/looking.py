"""How the page looks in a browser: of four sizes of circuits, in two windows, in light and in dark; and what a hand does with the drawing."""
import random

import week

WINDOWS, SCHEMES, GATES = ("1400,900", "500,800"), ("light", "dark"), (8, 116, 400, 16_000)
# how well letters stand out against what is behind them, and how high they are at least
CONTRAST, LETTERS = 4.5, 7
SEEN = """
const ratioOf = (one, other) => {
  const light = colour => [0.2126, 0.7152, 0.0722].reduce((sum, share, at) => sum + share * ((colour[at] / 255 + 0.055) / 1.055) ** 2.4, 0);
  const [dark, bright] = [light(one), light(other)].sort((a, b) => a - b);
  return (bright + 0.05) / (dark + 0.05);
};
const colourOf = (node, name) => (getComputedStyle(node)[name].match(/[\\d.]+/g) || [0, 0, 0]).slice(0, 3).map(Number);
const isWithin = (one, other) => one.left >= other.left - 1 && one.right <= other.right + 1 && one.top >= other.top - 1 && one.bottom <= other.bottom + 1;
const look_at = () => {
  const canvas = document.getElementById("canvas").getBoundingClientRect(), chosen = document.querySelector("#drawing .chosen"), body = chosen.querySelector(".body");
  const player = document.getElementById("player").getBoundingClientRect();
  told.seen = {
    dark: matchMedia("(prefers-color-scheme: dark)").matches, wide: document.documentElement.scrollWidth > window.innerWidth, chosen: chosen.dataset.node,
    at_edge: +text("step").split(" ")[1] > 0, why: text("row").includes(" if"), within: isWithin(body.getBoundingClientRect(), canvas),
    page: ratioOf(colourOf(document.body, "color"), colourOf(document.body, "backgroundColor")), box: ratioOf(colourOf(chosen.querySelector("text"), "fill"), colourOf(body, "fill")),
    letters: parseFloat(getComputedStyle(chosen.querySelector("text")).fontSize) * camera.scale, canvas: canvas.height / innerHeight, player: (player.bottom + scrollY) / innerHeight,
    map: !document.getElementById("map").hasAttribute("hidden") };
};
look_at();
"""


def circuit(gates):
    """A netlist of so many gates, in which the pulse of `h` goes everywhere."""
    chance = random.Random(gates)
    names, rows = ["h"], ["INPUT(a)", "INPUT(low)", "n = NOT(a)", "h = AND(a, n)"]
    for at in range(gates - 2):
        rows.append(f"g{at} = OR({chance.choice(names[-30:])}, {chance.choice((names + ['low'])[-30:])})")
        names.append(f"g{at}")
    return "\n".join(rows) + "\n"


def rows(opened, call, write, folder):
    """Rows of name, found, wanted."""
    for gates in GATES:
        bench, script = write(folder, "v.bench", circuit(gates)), write(folder, "v.txt", "start a=0 low=0\nchange a=1\n")
        page = call(["page", bench, script])[1]
        for size in WINDOWS:
            for scheme in SCHEMES:
                told, errors = opened(page, SEEN, size=size, scheme=scheme)
                seen = told.get("seen", {})
                yield f"{gates} gates at {size}, {scheme}", _faults(seen, scheme, errors), []
    yield from _hands(opened, call, write, folder)


def _faults(seen, scheme, errors):
    """What is wrong with what is seen."""
    if errors or not seen:
        return [errors, seen]
    wrong = {"scheme": seen["dark"] != (scheme == "dark"), "wide": seen["wide"], "root": seen["chosen"] != "h", "edge": not seen["at_edge"], "why": not seen["why"],
             "out of sight": not seen["within"], "letters": seen["letters"] < LETTERS, "canvas": seen["canvas"] < 0.3, "player": seen["player"] > 1.01}
    return [(name, seen) for name, is_wrong in wrong.items() if is_wrong] + [(name, seen[name]) for name in ("page", "box") if seen[name] < CONTRAST]


def _hands(opened, call, write, folder):
    """The wheel, dragging, the map, and what is printed."""
    page = call(["page", write(folder, "p.bench", circuit(116)), write(folder, "p.txt", "start a=0 low=0\nchange a=1\n")])[1]
    told, errors = opened(page, """
        const canvas = document.getElementById("canvas"), at = { clientX: 300, clientY: 300, bubbles: true, cancelable: true }, views = [];
        const note = () => views.push(document.getElementById("drawing").getAttribute("viewBox").split(" ").map(Number));
        note(); canvas.dispatchEvent(new WheelEvent("wheel", { ...at, deltaY: -100 })); note();
        canvas.dispatchEvent(new PointerEvent("pointerdown", { ...at, buttons: 1 })); window.dispatchEvent(new PointerEvent("pointermove", { clientX: 260, clientY: 290, buttons: 1 }));
        window.dispatchEvent(new PointerEvent("pointerup", {})); note(); window.dispatchEvent(new PointerEvent("pointermove", { clientX: 0, clientY: 0, buttons: 0 })); note();
        const map = document.getElementById("map").getBoundingClientRect();
        document.getElementById("map").dispatchEvent(new MouseEvent("click", { clientX: map.right - 2, clientY: map.bottom - 2, bubbles: true })); note();
        window.dispatchEvent(new Event("beforeprint")); note(); told.views = views; told.all = camera.width <= views[5][2] + 1 && camera.height <= views[5][3] + 1;
        press("all"); told.map = document.getElementById("map").hasAttribute("hidden");""")
    first, wheel, dragged, let_go, by_map, printed = told["views"]
    yield "the wheel makes it larger", (errors, wheel[2] < first[2]), ([], True)
    yield "dragging moves it", (dragged[0] > wheel[0], dragged[1] > wheel[1], dragged[2:] == wheel[2:], let_go == dragged), (True, True, True, True)
    yield "a click on the map moves it", (by_map[:2] != dragged[:2], by_map[2:] == dragged[2:]), (True, True)
    yield "a print has all of it", told["all"], True
