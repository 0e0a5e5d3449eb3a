// The states of a flow table as a graph: a circle for each, and an arrow for each change, which opens it.

const STATE = { radius: 15, edge: 60, right: 105, across: [120, 260], down: [66, 150] };

/** How many changes lead from the first state to each, at least. */
function depthsOf() {
  const depth = new Map([[1, 0]]);
  for (const at of depth.keys()) for (const one of movesOf(at)) if (one.to && !depth.has(one.to)) depth.set(one.to, depth.get(at) + 1);
  return depth;
}

const movesOf = number => DATA.changes.filter(one => one.from === number);

/** The place of each state in a room: a column for each depth, near to the states that lead to it. */
function placesOfStates({ clientWidth, clientHeight }) {
  const columns = [], place = new Map();
  for (const [number, depth] of depthsOf()) if (number <= DATA.states.length) (columns[depth] = columns[depth] || []).push(number);
  const tallest = Math.max(...columns.map(column => column.length)), share = (all, count) => all / Math.max(1, count - 1);
  const between = ([least, most], wanted) => Math.max(least, Math.min(most, wanted));
  const across = between(STATE.across, share(clientWidth - STATE.edge - STATE.right, columns.length)), down = between(STATE.down, share(clientHeight - 2 * STATE.edge, tallest));
  columns.forEach((column, at) => {
    const before = number => DATA.changes.filter(one => one.to === number && place.has(one.from)).map(one => place.get(one.from).y);
    const near = new Map(column.map(number => [number, before(number).reduce((sum, y, _, all) => sum + y / all.length, 0)]));
    column.sort((one, other) => near.get(one) - near.get(other) || one - other);
    column.forEach((number, row) => place.set(number, { x: STATE.edge + at * across, y: STATE.edge + (row + (tallest - column.length) / 2) * down }));
  });
  return place;
}

/** Draws the graph, if it is shown. */
function drawStates() {
  const room = byId("states");
  room.hidden = !view.states;
  byId("graph").setAttribute("aria-pressed", view.states);
  byId("gates").setAttribute("aria-pressed", !view.states);
  if (!view.states) return;
  const places = placesOfStates(room), xs = [...places.values()].map(place => place.x), ys = [...places.values()].map(place => place.y);
  const width = Math.max(...xs) + STATE.right, height = Math.max(...ys) + STATE.edge;
  const svg = make("svg", { width, height, role: "group", "aria-label": "states" });
  const beside = new Map(), count = key => beside.set(key, (beside.get(key) ?? -1) + 1).get(key);
  DATA.changes.forEach((one, at) => places.has(one.from) && svg.append(move(one, at, places, count(`${one.from}/${places.has(one.to) ? one.to : 0}`))));
  places.forEach((place, number) => svg.append(state(number, place)));
  room.replaceChildren(svg);
}

function state(number, { x, y }) {
  const made = make("g", { class: `state${change().from === number ? " chosen" : ""}`, transform: `translate(${x} ${y})` });
  made.append(make("circle", { r: STATE.radius }), make("text", { y: 4 }, number), make("title", {}, `state ${DATA.states[number - 1]}`));
  made.addEventListener("click", () => chooseChange(DATA.changes.findIndex(one => one.from === number)));
  return made;
}

/** An arrow from state to state, or to nowhere if nothing settles. `number` tells it from others between the same states. */
function move(one, at, places, number) {
  const label = `${one.title}: ${verdictOf(one)}`, from = places.get(one.from), to = places.get(one.to);
  const made = make("g", { class: `move ${lookOfChange(one)}${at === view.change ? " chosen" : ""}`, tabindex: 0, role: "button", "aria-label": label });
  const end = to ?? { x: from.x + 46, y: from.y - 34 - 20 * number }, { path, tip, words } = arrow(from, end, to ? number : 0, Boolean(to));
  made.append(make("path", { class: "near", d: path }), make("path", { d: path }), make("path", { class: "tip", d: tip }));
  made.append(make("text", words, to ? cut(one.burst, 20) : `${cut(one.burst, 14)} ?`), make("title", {}, label));
  const show = () => {
    view.states = false;
    chooseChange(at);
  };
  made.addEventListener("click", show);
  made.addEventListener("keydown", event => {
    if (event.key !== "Enter") return;
    event.stopPropagation();
    show();
  });
  return made;
}

/** A bent line between two circles, or from a circle to a point; its tip, and where its words stand. */
function arrow(from, to, number, isToCircle) {
  const x = to.x - from.x, y = to.y - from.y, length = Math.hypot(x, y) || 1, bend = isToCircle ? 14 + 14 * number + length * 0.06 : 0;
  const side = { x: -y / length * bend, y: x / length * bend }, mid = { x: from.x + x / 2 + side.x, y: from.y + y / 2 + side.y };
  const begin = towards(from, mid, STATE.radius), end = towards(to, mid, isToCircle ? STATE.radius + 7 : 0), point = towards(to, mid, isToCircle ? STATE.radius : -7);
  const across = { x: (end.y - point.y) * 0.5, y: (point.x - end.x) * 0.5 };
  return {
    path: `M${begin.x} ${begin.y}Q${mid.x} ${mid.y} ${end.x} ${end.y}`,
    tip: `M${point.x} ${point.y}L${end.x + across.x} ${end.y + across.y}L${end.x - across.x} ${end.y - across.y}Z`,
    words: isToCircle ? { x: 0.4 * begin.x + 0.46 * mid.x + 0.14 * end.x, y: 0.4 * begin.y + 0.46 * mid.y + 0.14 * end.y + 3 } : { x: to.x + 6, y: to.y - 8 },
  };
}

/** The point at some distance from one point on the way to another. */
function towards(from, to, distance) {
  const length = Math.hypot(to.x - from.x, to.y - from.y) || 1;
  return { x: from.x + (to.x - from.x) * distance / length, y: from.y + (to.y - from.y) * distance / length };
}

/** Shows the states, or the circuit. */
function showStates(wanted) {
  if (!DATA.states) return;
  choose({ states: wanted });
}
