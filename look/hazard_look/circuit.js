// The drawing of the circuit: boxes and wires, zoom and pan, and a small map of all of it.

const MOST_FAN = 24;
// how large a drawing is shown that fits, and how small one that does not
const MOST_FITTED = 1.4, LEAST_FITTED = 0.75;
// The part of the drawing that is seen, and the size of the whole; `shown` says which nodes it was made for.
const camera = { x: 0, y: 0, scale: 1, width: 1, height: 1, shown: "" };

function make(tag, attributes, text) {
  const made = document.createElementNS("http://www.w3.org/2000/svg", tag);
  for (const [name, value] of Object.entries(attributes)) made.setAttribute(name, value);
  if (text !== undefined) made.textContent = text;
  return made;
}

const cut = (text, most) => (text.length > most ? text.slice(0, most - 1) + "…" : text);

/** Draws the circuit in the state that is shown. The camera stays, unless other nodes are drawn than before. */
function drawCircuit() {
  const main = byId("circuit"), note = byId("note");
  const say = text => { note.textContent = text; };
  byId("drawing").replaceChildren();
  byId("map").replaceChildren();
  say("");
  main.classList.toggle("empty", !isAnalysed() || !NODES);
  if (!change()) return say("The script has no change.");
  if (change().stopped) return say(`This change was not analysed: ${change().stopped} did not settle in an earlier one.`);
  if (!NODES) return say("The circuit has no node.");
  const nodes = drawnNodes(), { clientWidth: width, clientHeight: height } = byId("canvas"), places = inBands(placesOf(nodes), { width, height });
  if (!isWhole()) say(`${nodes.length} of ${NODES} nodes: what leads to ${DATA.names[view.node]} and may move.`);
  const value = valuesAfter(view.step), moved = new Set(view.step ? steps()[view.step - 1] : []);
  Object.assign(camera, extentOf(places));
  const svg = byId("drawing"), boxes = make("g", {}), wires = make("g", {});
  for (const node of nodes) DATA.sources[node].forEach((source, pin) => wires.append(wire(node, source, pin, places, value, moved)));
  for (const node of nodes) boxes.append(box(node, places.get(node), value, moved));
  svg.append(wires, boxes);
  const shown = `${view.change}/${nodes.length === NODES ? "" : nodes.join()}`;
  if (shown !== camera.shown) {
    camera.shown = shown;
    fit(LEAST_FITTED, places.get(view.node));
  }
  keepInSight(places.get(view.node));
  drawMap(nodes, places);
  look();
}

function wire(node, source, pin, places, value, moved) {
  const to = places.get(node), from = places.get(source), variable = firstWire[node] + pin;
  const y2 = to.y + BOX.height * (pin + 1) / (DATA.sources[node].length + 1), x2 = to.x;
  const looks = ["wire", value[variable] && "high", isUnstable(variable, value) && "late", moved.has(variable) && "moved",
    DATA.loops[node] && DATA.loops[node] === DATA.loops[source] && "loop", view.faded && !mayMove(source) && "faded"].filter(Boolean).join(" ");
  const isStub = !from || !mayMove(source) && readers[source].length > MOST_FAN;
  const made = isStub ? make("g", { class: looks }) : make("path", { class: looks, d: pathOf(from, to, y2, pin, variable, places) });
  if (isStub) {
    made.append(make("path", { class: looks, d: `M${x2 - 18} ${y2}H${x2}` }));
    made.append(make("text", { class: "from", x: x2 - 20, y: y2 + 3 }, cut(DATA.names[source], 7)));
  }
  made.append(make("title", {}, `${nameOf(variable)}, the wire from ${DATA.names[source]}: ${value[variable]}`));
  return made;
}

function pathOf(from, to, y2, pin, variable, places) {
  const x1 = from.x + BOX.width, y1 = from.y + BOX.height / 2, x2 = to.x;
  if (from.band !== to.band) return across(x1, y1, x2, y2, variable, to.band > from.band ? to.above : to.below);
  return x2 > x1 ? forward(x1, y1, x2, y2, pin, places) : backward(x1, y1, x2, y2, variable % 3, places);
}

function box(node, place, value, moved) {
  const isBad = change().hazards.includes(node), row = change();
  const looks = ["box", lookOf(node), node === view.node && "chosen", moved.has(node) && "moved",
    view.faded && !mayMove(node) && "faded"].filter(Boolean).join(" ");
  const label = `${DATA.names[node]}, ${DATA.gates[node]}, ${kindOf(node)}, now ${value[node]}${isUnstable(node, value) ? ", unstable" : ""}`;
  const group = make("g", { class: looks, transform: `translate(${place.x} ${place.y})`, "data-node": DATA.names[node],
    tabindex: 0, role: "button", "aria-label": label, "aria-pressed": node === view.node });
  const { width, height } = BOX;
  if (isUnstable(node, value)) {
    group.append(make("rect", { class: "ring", x: -5, y: -5, width: width + 10, height: height + 10, rx: 9 }));
  }
  group.append(make("rect", { class: "body", width, height, rx: 5 }));
  group.append(make("text", { class: "name", x: 7, y: 14 }, cut(DATA.names[node], 14)));
  group.append(make("text", { x: 7, y: 28 }, `${cut(DATA.gates[node], 7)}  ${row.start[node]} to ${row.end[node]}`));
  group.append(make("text", { x: 7, y: 41 }, kindOf(node).replace("dynamic", "dyn.")));
  group.append(make("circle", { class: "badge", cx: width, cy: height / 2, r: 9 }));
  group.append(make("text", { class: "value", x: width - 3.5, y: height / 2 + 4 }, value[node]));
  group.append(make("title", {}, `${DATA.names[node]}${isBad ? ": " + kindOf(node) : ""} ${placeOf(node)}`));
  group.addEventListener("click", () => chooseNode(node));
  group.addEventListener("keydown", event => {
    if (event.key !== "Enter") return;
    event.stopPropagation();
    chooseNode(node);
    [...document.querySelectorAll(".box")].find(one => one.dataset.node === DATA.names[node])?.focus();
  });
  return group;
}

// ---- the camera ----

/** Shows all of the drawing; or, if it were smaller than is said, as much as there is room for, around a box. */
function fit(least, place) {
  const { clientWidth: width, clientHeight: height } = byId("canvas");
  camera.scale = Math.min(MOST_FITTED, Math.max(least, Math.min(width / camera.width, height / camera.height)));
  centerOn(place);
}

function fitAll() {
  fit(0, { x: camera.left, y: camera.top });
  look();
}

/** What the camera sees, in the measure of the drawing. */
const seen = () => ({ width: byId("canvas").clientWidth / camera.scale, height: byId("canvas").clientHeight / camera.scale });

/** Moves the camera over a point, but not beyond the drawing; of one that fits it sees all. */
function center(x, y) {
  const { width, height } = seen();
  const begin = (wanted, first, all, part) => (all <= part ? first + (all - part) / 2 : Math.max(first, Math.min(first + all - part, wanted - part / 2)));
  camera.x = begin(x, camera.left, camera.width, width);
  camera.y = begin(y, camera.top, camera.height, height);
}

const centerOn = ({ x, y }) => center(x + BOX.width / 2, y + BOX.height / 2);

/** Moves the camera to a node that it does not see. */
function keepInSight(place) {
  if (!place) return;
  const { width, height } = seen();
  const isSeen = place.x > camera.x && place.x + BOX.width < camera.x + width && place.y > camera.y && place.y + BOX.height < camera.y + height;
  if (!isSeen) centerOn(place);
}

/** Makes the drawing larger or smaller around a point of the canvas, or around its middle. */
function zoom(factor, point) {
  const { clientWidth: width, clientHeight: height } = byId("canvas"), { x, y } = point || { x: width / 2, y: height / 2 };
  const scale = Math.min(4, Math.max(0.05, camera.scale * factor));
  camera.x += x / camera.scale - x / scale;
  camera.y += y / camera.scale - y / scale;
  camera.scale = scale;
  look();
}

/** Turns the camera to where it stands. The map is there if that is not all of the drawing. */
function look() {
  const { width, height } = seen(), part = [camera.x, camera.y, width, height];
  byId("drawing").setAttribute("viewBox", part.map(one => one.toFixed(1)).join(" "));
  const frame = document.querySelector("#map .frame");
  ["x", "y", "width", "height"].forEach((name, at) => frame?.setAttribute(name, part[at].toFixed(1)));
  const isAll = camera.x <= camera.left + 1 && camera.y <= camera.top + 1 && camera.x + width >= camera.left + camera.width - 1 && camera.y + height >= camera.top + camera.height - 1;
  byId("map").toggleAttribute("hidden", isAll);
}

function drawMap(nodes, places) {
  const map = byId("map");
  map.setAttribute("viewBox", `${camera.left} ${camera.top} ${camera.width} ${camera.height}`);
  for (const node of nodes) {
    const { x, y } = places.get(node);
    map.append(make("rect", { class: `spot ${lookOf(node)}${node === view.node ? " chosen" : ""}`, x, y, width: BOX.width, height: BOX.height }));
  }
  map.append(make("rect", { class: "frame" }));
}

function listenToCanvas() {
  const canvas = byId("canvas");
  let from = null;
  canvas.addEventListener("wheel", event => {
    event.preventDefault();
    const { left, top } = canvas.getBoundingClientRect();
    zoom(event.deltaY < 0 ? 1.15 : 1 / 1.15, { x: event.clientX - left, y: event.clientY - top });
  }, { passive: false });
  canvas.addEventListener("pointerdown", event => { from = { x: event.clientX, y: event.clientY }; });
  window.addEventListener("pointermove", event => {
    if (!from || !event.buttons) return;
    camera.x -= (event.clientX - from.x) / camera.scale;
    camera.y -= (event.clientY - from.y) / camera.scale;
    from = { x: event.clientX, y: event.clientY };
    look();
  });
  window.addEventListener("pointerup", () => { from = null; });
  byId("map").addEventListener("click", event => {
    event.stopPropagation();
    const map = byId("map"), at = new DOMPoint(event.clientX, event.clientY).matrixTransform(map.getScreenCTM().inverse());
    center(at.x, at.y);
    look();
  });
  byId("larger").addEventListener("click", () => zoom(1.25));
  byId("smaller").addEventListener("click", () => zoom(0.8));
  byId("whole").addEventListener("click", fitAll);
}
