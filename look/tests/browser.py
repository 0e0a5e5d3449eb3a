"""The page in a headless Chromium: it opens at the glitch, the player steps, keys and clicks choose, and nothing passes behind a box."""
import html
import json
import re
import shutil
import subprocess

import exploring
import looking
import week

BROWSERS = ("chromium", "chromium-browser", "google-chrome")
# What a person would do with the page; `tell` notes what is then to be seen.
ACTIONS = """
const told = {}, errors = [];
window.addEventListener("error", event => errors.push(event.message));
const text = id => document.getElementById(id).textContent;
const press = id => document.getElementById(id).click();
const key = name => document.dispatchEvent(new KeyboardEvent("keydown", { key: name, bubbles: true, cancelable: true }));
const boxOf = name => [...document.querySelectorAll(".box")].find(one => one.dataset.node === name);
const count = selector => document.querySelectorAll(selector).length;
const isIn = ([left, top], { x, y }) => x > left + 2 && x < left + 110 && y > top + 1 && y < top + 45;
const crosses = (path, boxes) => [...Array(Math.ceil(path.getTotalLength() / 4)).keys()].some(at => {
  const point = path.getPointAtLength(4 * at);
  return boxes.some(box => isIn(box, point));
});
const crossings = () => {
  const boxes = [...document.querySelectorAll("#drawing .box")].map(box => box.getAttribute("transform").match(/[-\\d.]+/g).map(Number));
  return [...document.querySelectorAll("#drawing path.wire")].filter(path => crosses(path, boxes)).map(path => path.textContent);
};
const tell = name => {
  told[name] = { step: text("step"), now: text("now"), row: text("row").slice(0, 60), boxes: count("#drawing .box"), edges: text("edges"),
    rings: count("#drawing .ring"), late: count("#drawing .late"), traces: count(".trace"), changes: count("nav button"), why: document.querySelector(".why")?.textContent ?? "",
    chosen: document.querySelector("#drawing .chosen")?.dataset.node ?? "", nav: text("changes"), map: document.getElementById("map").hasAttribute("hidden") ? 0 : count("#map .spot"), view: document.getElementById("drawing").getAttribute("viewBox"),
    which: document.getElementById("which").selectedOptions[0]?.textContent ?? "", wide: document.documentElement.scrollWidth > window.innerWidth };
};
"""
REPORT = """
document.body.append(Object.assign(document.createElement("pre"), { id: "told", textContent: JSON.stringify({ told, errors }) }));
"""


def rows(folder, call, write, example, hazard):
    """Rows of name, found, wanted."""
    browser = next((path for path in map(shutil.which, BROWSERS) if path), None)
    if browser is None:
        print("skipped: pages_in_a_browser: no Chromium is installed")
        return
    opened = lambda page, actions, **more: _opened(folder, browser, write, page, actions, **more)
    yield from _small(opened, call, example)
    yield from _addresses(opened, call, example)
    yield from _crossings(opened, call, example)
    yield from _bands(opened, call, write, folder)
    yield from _stopped(opened, call, write, folder, example)
    yield from _expected(opened, call, write, folder)
    yield from _other_root(opened, call, write, folder)
    yield from _clean(opened, call, write, folder)
    yield from _across(opened, call, write, folder)
    yield from _large(opened, call, write, folder)
    yield from looking.rows(opened, call, write, folder)
    yield from _lists(opened, call, write, folder)
    yield from _cone(opened, call, write, folder)
    yield from _played(opened, call, write, folder)
    if exploring.is_known(hazard, example):
        yield from _states(opened, call, write, folder)


def _opened(folder, browser, write, page, actions, address="", size="1400,900", scheme="light", after=0):
    """What is told by some actions on a page, and the errors of its program; `after`: so many milliseconds later."""
    head, body = page.split("</style>", 1)
    script, report = f"<script>{ACTIONS}</script>", f"setTimeout(() => {{ told.later = text('step'); {REPORT} }}, {after});" if after else REPORT
    body = body.replace("</body>", f"<script>{actions}{report}</script></body>")
    path = write(folder, "page.html", f"{head}</style>{script}{body}")
    options = ["--headless", "--no-sandbox", "--disable-gpu", "--dump-dom", f"--user-data-dir={folder}/browser", f"--window-size={size}", f"--blink-settings=preferredColorScheme={int(scheme == 'light')}"] + [f"--virtual-time-budget={3 * after}"] * bool(after)
    done = subprocess.run([browser] + options + [f"file://{path}{address}"],
                          stdout=subprocess.PIPE, stderr=subprocess.DEVNULL, timeout=900, check=False)
    found = re.search(r'<pre id="told">(.*?)</pre>', done.stdout.decode(), re.S)
    answer = json.loads(html.unescape(found[1])) if found else {"told": {}, "errors": ["no answer"]}
    return answer["told"], answer["errors"]


def _small(opened, call, example):
    page = call(["page"] + example("multiplexer"))[1]
    told, errors = opened(page, """
        tell("opened"); key("n"); tell("next"); key("p"); tell("before"); press("last"); tell("last"); press("back"); tell("back"); key("Home"); tell("home");
        press("on"); press("on"); tell("stepped"); key("End"); tell("end"); press("before"); tell("button"); key("+"); tell("larger"); key("0"); tell("all");
        boxOf("a").dispatchEvent(new MouseEvent("click")); tell("clicked"); key("ArrowDown"); tell("hazard"); key("ArrowLeft"); tell("left");
        boxOf("n").dispatchEvent(new KeyboardEvent("keydown", { key: "Enter", bubbles: true })); tell("entered");
        told.roles = [boxOf("z").getAttribute("role"), boxOf("z").getAttribute("tabindex"), boxOf("z").getAttribute("aria-label"), document.activeElement.dataset?.node];""")
    first = told["opened"]
    yield "errors of the page", errors, []
    yield "boxes and waves", (first["boxes"], first["traces"], first["changes"]), (7, 10, 1)
    yield "it opens at the glitch", (first["chosen"], first["step"], first["now"], first["edges"]), ("z", "step 5 of 11", "now: z | unstable: n(1)", "z: 2 edges")
    yield "why", (first["why"], first["which"]), ("a pulse"
                                                  "a logic hazard: a term that is 1 at x=1 y=1 would cover it, as AND(x, y)\n"
                                                  "z pulses if n(1), n, b(1), b, z(2) are slower than a(1), a, z(1), z: 2 gates and 3 wires against 2 gates and 2 wires",
                                                  "why z: a pulse, 11 steps")
    yield "the next edge and the one before", [told[name]["step"] for name in ("next", "before", "button")], ["step 11 of 11", "step 5 of 11", "step 5 of 11"]
    yield "to the end and back", [told[name]["step"] for name in ("last", "back", "home", "end")], [f"step {at} of 11" for at in (11, 10, 0, 11)]
    yield "two steps", (told["stepped"]["step"], told["stepped"]["now"], told["stepped"]["late"], told["stepped"]["rings"]), ("step 2 of 11", "now: a(1) | unstable: a n(1)", 1, 1)
    yield "larger, and all of it", (told["larger"]["view"] != told["button"]["view"], told["all"]["view"] != told["larger"]["view"]), (True, True)
    yield "a row by a click", (told["clicked"]["chosen"], told["clicked"]["row"][:37]), ("a", "ait goes from 1 to 0 by one edgeclass")
    yield "a hazard by a key", (told["hazard"]["chosen"], told["left"]["step"]), ("z", "step 4 of 11")
    yield "a box by its key, and roles", (told["entered"]["chosen"], told["roles"][:2], told["roles"][2].startswith("z, OR, static-1"), told["roles"][3]), ("n", ["button", "0"], True, "n")
    told, errors = opened(page, 'tell("opened");', size="500,800")
    yield "a narrow window", (errors, told["opened"]["wide"], told["opened"]["boxes"]), ([], False, 7)


def _addresses(opened, call, example):
    """What the address asks for, and addresses that ask for nothing."""
    page = call(["page"] + example("multiplexer"))[1]
    for address, chosen, step in (("#1/a/1/3", "a", "step 3 of 11"), ("#1/%zz", "z", "step 5 of 11"), ("#9/none/7/99", "z", "step 11 of 11"), ("#x", "z", "step 5 of 11")):
        told, errors = opened(page, 'tell("opened");', address=address)
        yield f"the address {address}", (errors, told["opened"]["chosen"], told["opened"]["step"]), ([], chosen, told["opened"]["step"] if "none" in address else step)


def _crossings(opened, call, example):
    """No wire passes behind a box, where Graphviz puts the boxes and where the page does."""
    for name in ("tree", "mutex", "burst", "clockmux", "celement", "pipeline"):
        for page in (call(["page"] + example(name))[1], re.sub(r'"places":\[\[.*?\]\]', '"places":null', call(["page"] + example(name))[1])):
            told, errors = opened(page, 'tell("opened"); told.opened.crossings = crossings();')
            yield f"wires behind boxes of {name}", (errors, told["opened"]["crossings"]), ([], [])


def _bands(opened, call, write, folder):
    """A circuit that is longer than the canvas is laid in bands: all of it is seen, large enough to be read, and no wire passes behind a box."""
    page = call(["page", write(folder, "s.bench", week.SCAN), write(folder, "s.txt", "start d=0 si=0 se=0 ck=1 m=1 q=1\nchange ck=0\n")])[1]
    for places in (page, re.sub(r'"places":\[\[.*?\]\]', '"places":null', page)):
        told, errors = opened(places, 'tell("opened"); told.opened.crossings = crossings(); told.opened.scale = camera.scale;')
        first = told["opened"]
        yield "bands of a long circuit", (errors, first["boxes"], first["map"], first["crossings"], first["scale"] > 0.75), ([], 18, 0, [], True)


def _stopped(opened, call, write, folder, example):
    """A race, its cycle, and the change after it."""
    script = write(folder, "r.txt", "start r=1 s=1\nchange r=0 s=0\nchange s=1\n")
    page = call(["page", example("latch")[0], script])[1]
    told, errors = opened(page, """
        tell("opened"); const which = document.getElementById("which"); told.runs = [...which.options].map(one => one.textContent);
        which.value = which.options.length - 2; which.dispatchEvent(new Event("change")); press("last"); tell("cycle");
        key("PageDown"); tell("stopped"); key("PageUp"); tell("again");""")
    yield "errors of a race", errors, []
    yield "both ends of a race", (told["opened"]["why"].startswith("it can end at 0q ends at 0 if r, q(1) are slower than"), [run[:19] for run in told["runs"][:3]]), (
        True, ["why q: it can end a", "why q: it can end a", "why q: it can go on"])
    yield "the end of the cycle", told["cycle"]["step"], "step 6 of 6"
    yield "a change that was not analysed", (told["stopped"]["boxes"], told["stopped"]["row"], told["again"]["boxes"]), (0, "", 4)


def _expected(opened, call, write, folder):
    """What is expected and does not hold is red, and the page opens there."""
    bench = write(folder, "e.bench", "INPUT(a)\nINPUT(b)\nn = NOT(a)\nh = AND(a, n)\nz = BUFF(b)\n")
    page = call(["page", bench, write(folder, "e.txt", "start a=0 b=0\nchange a=1\nchange b=1 #expect z steady\n")])[1]
    told, errors = opened(page, 'tell("opened"); told.red = document.querySelector("nav .failed").textContent; told.said = document.querySelector("aside .failed").textContent; press("hidden"); tell("hidden");')
    yield "a change of which an expectation fails", (errors, told["red"], told["said"]), ([], "2 b=1clean; 1 #expect failed", "#expect failed: z steady: its class is single")
    yield "the failed change is chosen", (told["opened"]["nav"], told["opened"]["chosen"], told["hidden"]["changes"]), ("1 a=11 hazard2 b=1clean; 1 #expect failed", "b", 2)


def _other_root(opened, call, write, folder):
    """Of a hazard that the run of `why` does not show a run is shown in which it moves."""
    bench = write(folder, "o.bench", "INPUT(a)\nINPUT(b)\nn = NOT(a)\nh = AND(a, n)\nm = NOT(b)\nk = AND(b, m)\n")
    page = call(["page", bench, write(folder, "o.txt", "start a=0 b=0\nchange a=1 b=1\n")])[1]
    told, errors = opened(page, """
        tell("opened"); key("ArrowDown"); tell("other"); told.moves = edgesOf(view.node).length;
        boxOf("m").dispatchEvent(new MouseEvent("click")); tell("kept"); boxOf("h").dispatchEvent(new MouseEvent("click")); tell("first");""")
    seen = [(told[name]["chosen"], told[name]["which"].partition(",")[0]) for name in ("opened", "other", "kept", "first")]
    yield "a run for each hazard", (errors, seen, told["moves"] > 0, told["other"]["step"] != "step 0"), (
        [], [("h", "why h: a pulse"), ("k", "report: the run of all nodes"), ("m", "report: the run of all nodes"), ("h", "why h: a pulse")], True, True)


def _clean(opened, call, write, folder):
    """A clean change chooses the input that changes, and a list of more than 200 changes says so and goes on."""
    bench = write(folder, "c.bench", "INPUT(ck)\nINPUT(d)\nq = BUFF(d)\nr = BUFF(ck)\n")
    script = write(folder, "c.txt", "start ck=0 d=0\n" + "".join(f"change d={(at + 1) % 2}\n" for at in range(300)))
    page = call(["page", bench, script])[1]
    told, errors = opened(page, 'tell("opened"); document.querySelector("nav .more").click(); tell("all"); press("faded"); told.faded = count(".box.faded");')
    yield "an input that changes", (errors, told["opened"]["chosen"], told["opened"]["step"], told["faded"]), ([], "d", "step 1 of 3", 2)
    yield "a long list", (told["opened"]["changes"], told["opened"]["nav"][:32], told["all"]["changes"]), (201, "changes 1 to 200 of 300: show al", 300)


def _across(opened, call, write, folder):
    """A node that moves once in both halves of a clock edge is no green one."""
    bench = write(folder, "k.bench", week.RING)
    script = write(folder, "k.txt", call(["clock", bench, write(folder, "k.clk", "start ck=0 t0=1 t1=0 t2=0\n#clock ck\n#clock ck=0\n")])[1])
    told, errors = opened(call(["page", bench, script])[1], 'tell("opened"); told.look = document.querySelector("nav .chosen").className; told.said = document.querySelector("aside .failed").textContent; press("hidden"); tell("hidden");')
    yield "a pulse across an edge", (errors, told["opened"]["nav"], told["opened"]["chosen"], told["look"], told["said"], told["hidden"]["changes"]), (
        [], "1 ck=1clean2 t0=0 t1=11 pulses across the edge3 ck=0clean", "g0", "pulses chosen", "it pulses across the edge: it moves once in each of the changes 1 and 2", 1)


def _large(opened, call, write, folder):
    """A chain of 20,000 gates: the cone of a node is shown, and a node is found by its name; of 100 gates all are drawn if that is wanted."""
    count = 20_000
    chain = lambda count: "INPUT(a)\nINPUT(c)\ng0 = NOT(a)\n" + "".join(f"g{at} = AND(g{at - 1}, c)\n" for at in range(1, count))
    bench = write(folder, "c.bench", chain(count))
    status, page = call(["page", bench, write(folder, "c.txt", "start a=0 c=1\nchange a=1\n")])
    yield "the page of a large circuit", (status, len(page) < 6_000_000), (0, True)
    told, errors = opened(page, """
        const search = document.getElementById("search");
        search.value = "g10000"; search.dispatchEvent(new Event("input")); tell("found");
        press("last"); tell("last");""")
    yield "errors of a large circuit", errors, []
    yield "a node of a large circuit", told["found"]["row"][:41], "g10000it goes from 1 to 0 by one edgeclas"
    yield "its cone", told["found"]["boxes"], 60
    yield "its last step", told["last"]["step"], f"step {2 * count + 1} of {2 * count + 1}"
    page = call(["page", write(folder, "d.bench", chain(100)), write(folder, "d.txt", "start a=0 c=1\nchange a=1\n")])[1]
    told, errors = opened(page, 'tell("opened"); press("all"); tell("whole"); press("whole"); tell("fitted");')
    yield "a whole circuit and its map", (errors, told["opened"]["boxes"], told["opened"]["map"], told["whole"]["boxes"], told["whole"]["map"], told["fitted"]["map"]), ([], 60, 60, 102, 102, 0)


def _lists(opened, call, write, folder):
    """Of hazards that only flip-flops read the page does not speak first; a list of more than 200 hazards goes on; a node and a change have their places."""
    bench = write(folder, "f.bench", "INPUT(a)\nn = NOT(a)\nd = AND(a, n)\nq = DFF(d)\nz = AND(n, a)\ny = BUFF(z)\n")
    script = write(folder, "f.txt", "start a=0 q=0\n# up\nchange a=1\n")
    told, errors = opened(call(["page", bench, script])[1], 'tell("opened"); told.row = text("row"); told.title = document.querySelector("nav span").title;')
    yield "what only flip-flops read comes last", (errors, told["opened"]["chosen"]), ([], "z")
    yield "places of a node and of a change", (f"{bench}:5" in told["row"], told["title"]), (True, f"{script}:3: 1 a=1")
    bench = write(folder, "l.bench", "INPUT(a)\nn = NOT(a)\n" + "".join(f"h{at} = AND(a, n)\n" for at in range(300)))
    told, errors = opened(call(["page", bench, write(folder, "l.txt", "start a=0\nchange a=1\n")])[1], """
        const listed = () => [...document.querySelectorAll("#row .node")].filter(one => one.textContent.startsWith("h")).length;
        told.listed = [listed()]; told.more = document.querySelector("#row .more").textContent; document.querySelector("#row .more").click(); told.listed.push(listed());""")
    yield "a long list of hazards", (errors, told["listed"], told["more"]), ([], [200, 300], "show all 300")


def _cone(opened, call, write, folder):
    """Of a large circuit what moves is drawn before what is steady."""
    steady, chain = ("".join(f"s{at} = AND(a, low)\n" for at in range(80)), "".join(f"g{at} = BUFF({f'g{at - 1}' if at else 'h'})\n" for at in range(30)))
    page = call(["page", write(folder, "o.bench", f"INPUT(a)\nINPUT(low)\n{steady}n = NOT(a)\nh = AND(a, n)\n{chain}"), write(folder, "o.txt", "start a=0 low=0\nchange a=1\n")])[1]
    told, errors = opened(page, 'tell("opened"); told.drawn = [...document.querySelectorAll("#drawing .box")].map(one => one.dataset.node);')
    yield "the cone of a hazard", (errors, told["opened"]["chosen"], [f"g{at}" for at in range(30) if f"g{at}" not in told["drawn"]], {"a", "n", "h"} <= set(told["drawn"])), ([], "h", [], True)


def _played(opened, call, write, folder):
    """A run that is played goes on by itself, at the speed that is chosen, and stops at its end."""
    bench = write(folder, "y.bench", "INPUT(a)\ng0 = NOT(a)\n" + "".join(f"g{at} = NOT(g{at - 1})\n" for at in range(1, 200)))
    page = call(["page", bench, write(folder, "y.txt", "start a=0\nchange a=1\n")])[1]
    choose = 'const speed = document.getElementById("speed"); speed.value = "{}"; speed.dispatchEvent(new Event("change")); key("Home"); press("play");'
    steps = {}
    for speed in (2, 50):
        told, errors = opened(page, choose.format(speed), after=2000)
        steps[speed] = int(told["later"].split()[1])
        yield f"played, {speed} a second", (errors, speed <= steps[speed] <= 2 * speed), ([], True)


def _states(opened, call, write, folder):
    """The graph of a flow table: a click on an arrow opens its change, in the circuit."""
    page = call(["table", "--page", write(folder, "l.bench", exploring.LATCH), write(folder, "l.txt", "start r=0 s=0 q=1\nchange r=1\nchange r=0\nchange r=1 s=1\nchange r=0 s=0\n")])[1]
    told, errors = opened(page, """
        const arrows = () => [...document.querySelectorAll(".move")], isShown = () => !document.getElementById("states").hidden;
        tell("opened"); told.arrows = arrows().map(one => one.getAttribute("aria-label")); told.states = count(".state"); told.shown = [isShown()];
        arrows()[0].dispatchEvent(new MouseEvent("click")); tell("clicked"); told.shown.push(isShown()); told.script = [...document.querySelectorAll("code")].pop().textContent;
        key("s"); told.shown.push(isShown()); document.querySelectorAll(".state")[1].dispatchEvent(new MouseEvent("click")); tell("state"); told.shown.push(isShown());
        arrows()[0].dispatchEvent(new KeyboardEvent("keydown", { key: "Enter", bubbles: true })); told.shown.push(isShown());""")
    yield "the arrows of a graph", (errors, told["states"], told["arrows"]), (
        [], 5, ["1 to 2, r=1: clean", "1 to 3, r=1 s=1: 2 hazards", "2 to 4, r=0: clean", "3 to 5, r=0: clean", "3 unsettled, r=0 s=0: 2 hazards", "4 to 2, r=1: clean",
                "4 to 3, r=1 s=1: 2 hazards", "5 to 3, r=1: clean"])
    yield "states and circuit", (told["shown"], told["opened"]["nav"].count("unsettled"), told["script"]), ([True, False, True, True, False], 1, "start r=0 s=0 q=1\nchange r=1")
    yield "the changes that open", (told["opened"]["chosen"], told["clicked"]["chosen"], told["state"]["chosen"], told["clicked"]["boxes"]), ("qb", "r", "r", 4)
