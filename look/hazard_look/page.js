// The choices of the page and its keys. What they draw stands in the files before this one, in the same script.

const KEYS = {
  ArrowRight: () => go(view.step + 1), ArrowLeft: () => go(view.step - 1), Home: () => go(0), End: () => go(steps().length),
  n: () => goToEdge(1), p: () => goToEdge(-1), PageDown: () => chooseChange(view.change + 1), PageUp: () => chooseChange(view.change - 1),
  ArrowDown: () => chooseHazard(1), ArrowUp: () => chooseHazard(-1), " ": () => play(), "+": () => zoom(1.25), "-": () => zoom(0.8), 0: () => fitAll(),
  "/": () => byId("search").focus(), s: () => showStates(!view.states),
};

/** Goes to a step of the run, the nearest that there is. */
function go(step) {
  choose({ step: Math.max(0, Math.min(steps().length, step)) });
}

/** Goes to the next edge of the chosen node, or to the one before. */
function goToEdge(way) {
  const edges = edgesOf(view.node);
  const at = way > 0 ? edges.find(step => step > view.step) : edges.filter(step => step < view.step).pop();
  if (at !== undefined) go(at);
}

function play() {
  if (view.timer) clearInterval(view.timer);
  view.timer = view.timer ? null : setInterval(() => (view.step < steps().length ? go(view.step + 1) : play()), 1000 / view.speed);
  byId("play").textContent = view.timer ? "pause" : "play";
}

// ---- choices ----

/** Chooses a node, with the run that shows most of it, at its first edge there: the one of `why`; or else the one that is shown, if the
 * node moves in it; or else the one in which it moves most. */
function chooseNode(node) {
  const edges = runsOf().map(one => one.steps.filter(step => step.includes(node)).length);
  const own = runsOf().findIndex(one => one.node === node), most = Math.max(0, ...edges);
  const at = own >= 0 ? own : edges[view.run] || !most ? view.run : edges.indexOf(most);
  if (at === view.run) return choose({ node });
  view.node = node;
  view.run = at;
  choose({ node, step: opening(node) });
}

/** Chooses a change, with its worst root. */
function chooseChange(at) {
  if (at < 0 || at >= DATA.changes.length) return;
  view.change = at;
  view.node = usualNode(at);
  view.run = usualRun(view.node);
  choose({ step: isAnalysed() ? opening(view.node) : 0 });
}

/** Chooses the next hazard of the change, or the one before. */
function chooseHazard(way) {
  const list = isAnalysed() ? change().hazards : [], at = list.indexOf(view.node);
  if (list.length) chooseNode(list[at < 0 ? 0 : (at + way + list.length) % list.length]);
}

/** Takes over some choices, and draws what depends on them. */
function choose(some) {
  Object.assign(view, some);
  drawChanges();
  drawStates();
  drawCircuit();
  drawRow();
  drawPlayer();
  drawWave();
  if (!change() || !NODES) return;
  const address = [view.change + 1, encodeURIComponent(DATA.names[view.node]), view.run, view.step].join("/");
  history.replaceState(null, "", `#${address}`);
}

/** A name as the address has it; as it stands, if it is not spelt as addresses are. */
function decoded(name) {
  try {
    return decodeURIComponent(name);
  } catch {
    return name;
  }
}

/**
 * Opens what the address asks for: change, node, run, step. Without a change it is the first one of which an expectation fails, or else
 * that has a hazard; without a node its worst root; without a run and a step what shows most of it.
 */
function open() {
  const [number, name, which, step] = location.hash.slice(1).split("/");
  const failed = DATA.changes.findIndex(one => one.failed), hazardous = DATA.changes.findIndex(one => !one.stopped && isPulsing(one));
  const asked = Math.min(Math.max(0, (+number || 1) - 1), Math.max(0, DATA.changes.length - 1));
  view.change = number ? asked : Math.max(0, failed >= 0 ? failed : hazardous);
  const node = name ? DATA.names.indexOf(decoded(name)) : -1;
  view.node = node >= 0 ? node : usualNode(view.change);
  view.states = Boolean(DATA.states) && !number;
  view.run = Math.min(which ? Math.max(0, +which || 0) : usualRun(view.node), Math.max(0, runsOf().length - 1));
  choose({ step: Math.min(step ? Math.max(0, +step || 0) : isAnalysed() ? opening(view.node) : 0, steps().length) });
}

document.title = byId("title").textContent = DATA.title;
if (DATA.checked) byId("title").title = `${DATA.checked} expectations checked`;
byId("views").hidden = !DATA.states;
byId("counted").textContent = DATA.counted ?? "";
byId("hidden").addEventListener("change", event => choose({ hidden: event.target.checked }));
byId("faded").addEventListener("change", event => choose({ faded: event.target.checked }));
byId("all").addEventListener("change", event => choose({ whole: event.target.checked }));
byId("wholes").hidden = NODES <= MOST_NEAR || NODES > DATA.most;
byId("which").addEventListener("change", event => {
  view.run = +event.target.value;
  choose({ step: opening(view.node) });
});
byId("speed").addEventListener("change", event => {
  view.speed = +event.target.value;
  if (view.timer) [play(), play()];
});
byId("graph").addEventListener("click", () => showStates(true));
byId("gates").addEventListener("click", () => showStates(false));
const BUTTONS = { first: () => go(0), back: () => go(view.step - 1), on: () => go(view.step + 1), last: () => go(steps().length),
  before: () => goToEdge(-1), after: () => goToEdge(1), play };
for (const [name, act] of Object.entries(BUTTONS)) byId(name).addEventListener("click", act);
byId("search").addEventListener("input", event => {
  const text = event.target.value, node = DATA.names.indexOf(text);
  const found = DATA.names.filter(name => name.includes(text)).slice(0, 20);
  byId("found").replaceChildren(...found.map(name => new Option(name)));
  if (node >= 0) chooseNode(node);
});
document.addEventListener("keydown", event => {
  const isTyped = ["INPUT", "SELECT"].includes(event.target.tagName) && event.target.type !== "checkbox";
  if (isTyped || event.ctrlKey || event.metaKey || event.altKey || !Object.hasOwn(KEYS, event.key)) return;
  if (event.key === " " && event.target.tagName === "BUTTON") return;
  event.preventDefault();
  KEYS[event.key]();
});
listenToCanvas();
window.addEventListener("beforeprint", fitAll);
window.addEventListener("resize", () => {
  camera.shown = "";
  drawCircuit();
  drawWave();
});
open();
