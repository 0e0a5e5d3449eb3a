// What stands around the drawing: the changes, the row of a node, why it has its hazard, the player and the waveform.

const MOST_WAVES = 40, WINDOW = 120, ROW = 20;
const opened = new Set(); // the long lists of which more is shown

const put = (room, tag, text, looks) => {
  const made = room.appendChild(document.createElement(tag));
  if (text !== undefined) made.textContent = text;
  if (looks) made.className = looks;
  return made;
};

// ---- the changes ----

const isPulsing = one => one.hazards.length > 0 || Boolean(one.across);
const lookOfChange = one => (one.failed ? "failed" : one.stopped ? "stopped" : one.end.includes("X") ? "open" : isPulsing(one) ? "pulses" : "once");
const verdictOf = one => {
  if (one.stopped) return "not analysed";
  const count = one.hazards.length, roots = one.roots, across = Object.keys(one.across ?? {}).length;
  const pulses = across ? `${across} pulse${across > 1 ? "" : "s"} across the edge` : "";
  if (!count) return pulses || (one.kept === false ? "clean, if a run keeps the orders" : "clean");
  return `${count} hazard${count > 1 ? "s" : ""}` + (roots < count ? `, ${roots} root${roots > 1 ? "s" : ""}` : "") + (pulses && `; ${pulses}`);
};

function drawChanges() {
  const list = byId("changes"), scrolled = list.scrollTop;
  list.replaceChildren();
  const shown = DATA.changes.map((one, at) => at).filter(at => !view.hidden || DATA.changes[at].stopped || isPulsing(DATA.changes[at]) || DATA.changes[at].failed);
  const most = opened.has("changes") ? shown.length : MOST_LISTED, begin = opened.has("changes") ? 0 : Math.max(0, Math.min(shown.indexOf(view.change) - 20, shown.length - most));
  const part = shown.slice(begin, begin + most);
  if (part.length < shown.length) more(list, "changes", `changes ${part[0] + 1} to ${part[part.length - 1] + 1} of ${DATA.changes.length}: show all`, drawChanges);
  for (const at of part) {
    const one = DATA.changes[at];
    const button = put(list, "button", undefined, `${lookOfChange(one)}${at === view.change ? " chosen" : ""}`);
    put(button, "span", one.title).title = one.script ?? `${DATA.files[1]}:${one.line}: ${one.title}`;
    put(button, "small", verdictOf(one) + (one.failed ? `; ${one.failed.length} #expect failed` : ""));
    if (at === view.change) button.setAttribute("aria-current", "true");
    button.addEventListener("click", () => chooseChange(at));
  }
  list.scrollTop = scrolled;
  list.querySelector(".chosen")?.scrollIntoView({ block: "nearest" });
}

/** A button that shows all of a long list. */
function more(room, name, text, draw) {
  put(room, "button", text, "more").addEventListener("click", () => {
    opened.add(name);
    draw();
  });
}

// ---- the row of a node ----

function drawRow() {
  const room = byId("row"), node = view.node;
  room.replaceChildren();
  if (!isAnalysed()) return;
  const [least, most] = rangeOf(node), those = change().under ? " that keeps the orders" : "";
  const bound = most === null ? "no bound on its edges is known" : `no run${those} makes more${most === least ? "" : ` than ${most}`}`;
  const meaning = those && classOf(node) === "unsettled" ? DATA.meanings.undecided : DATA.meanings[classOf(node)];
  const values = { start: change().start[node], new: 1 - change().start[node], least, bound };
  put(room, "h2", DATA.names[node]);
  put(room, "div", meaning.replace(/\{(\w+)\}/g, (_, word) => values[word]));
  for (const text of change().under || []) put(room, "div", text, "under");
  const across = change().across?.[node];
  if (across) put(room, "div", `it pulses across the edge: it moves once in each of the changes ${across.join(" and ")}`, "failed");
  drawWhy(room, node);
  for (const text of change().failed || []) put(room, "div", `#expect failed: ${text}`, "failed");
  const lines = [["class", kindOf(node)], ["kind", DATA.gates[node]], ["start", values.start],
    ["at last", change().end[node]], ["edges", rangeWord([least, most])], ["stands in", placeOf(node)]];
  const table = put(room, "table");
  for (const [head, text] of lines.filter(([, text]) => text !== "")) {
    const line = table.insertRow();
    put(line, "th", head);
    put(line, "td", text);
  }
  listNodes(room, "hazards of this change, the roots first:", change().hazards);
  if (change().across) listNodes(room, "pulse across the edge:", Object.keys(change().across).map(Number));
  listNodes(room, "reads", [...new Set(DATA.sources[node])]);
  listNodes(room, "read by", readers[node]);
}

/** What `why` says of the node, or the words that ask it. */
function drawWhy(room, node) {
  const told = (change().why || []).filter(one => one.node === node);
  for (const one of told) {
    const part = put(room, "section", undefined, "why");
    put(part, "b", one.title);
    put(part, "p", one.told.join("\n"));
  }
  if (!told.length && change().hazards.includes(node)) {
    put(room, "p", "A short run, and which wires have to be slow:", "ask");
    const words = ["hazard-look", "why", DATA.files[0], ...(change().script ? ["SCRIPT", DATA.names[node]] : [DATA.files[1], DATA.names[node], view.change + 1])];
    put(room, "code", words.map(word => (/^[\w./@:+-]+$/.test(word) ? word : `'${word}'`)).join(" "));
  }
  if (change().script) {
    put(room, "p", "The script of this change:", "ask");
    put(room, "code", change().script);
  }
}

function listNodes(room, title, list) {
  const name = `${title}${view.change}`, isAll = opened.has(name) || list.length <= MOST_LISTED;
  put(room, "h3", list.length ? title + (isAll ? "" : ` (the first ${MOST_LISTED} of ${list.length})`) : `${title} nothing`);
  for (const other of isAll ? list : list.slice(0, MOST_LISTED)) {
    const button = put(room, "button", DATA.names[other], `node${other === view.node ? " chosen" : ""} ${change().hazards.includes(other) ? lookOf(other) : ""}`);
    button.addEventListener("click", () => chooseNode(other));
  }
  if (!isAll) more(room, name, `show all ${list.length}`, drawRow);
}

// ---- the player ----

function drawPlayer() {
  const which = byId("which"), runs = runsOf();
  which.replaceChildren(...runs.map((one, at) => new Option(`${one.title}, ${one.steps.length} steps`, at)));
  which.value = view.run;
  const count = steps().length, edges = runs.length ? edgesOf(view.node) : [];
  const names = list => list.slice(0, 14).map(nameOf).join(" ") + (list.length > 14 ? " .." : "");
  byId("step").textContent = runs.length ? `step ${view.step} of ${count}` : change()?.kept === false ? "no run is known that keeps the orders" : "the runs of this change are left out";
  byId("edges").textContent = runs.length ? `${DATA.names[view.node]}: ${edges.length} edge${edges.length === 1 ? "" : "s"}` : "";
  byId("before").disabled = !edges.some(at => at < view.step);
  byId("after").disabled = !edges.some(at => at > view.step);
  byId("now").textContent = "";
  if (!runs.length) return;
  const value = valuesAfter(view.step), waiting = [];
  for (let variable = 0; variable < VARIABLES && waiting.length < 15; variable++) {
    if (isUnstable(variable, value)) waiting.push(variable);
  }
  const now = view.step ? `now: ${names(steps()[view.step - 1])} | ` : "";
  byId("now").textContent = now + (waiting.length ? `unstable: ${names(waiting)}` : "at rest");
}

/** The variables of the waveform: the chosen node and its wires, then what changes near it or at all, by its first change. */
function waveVariables() {
  const own = [view.node, ...DATA.sources[view.node].map((_, pin) => firstWire[view.node] + pin)];
  const shown = new Set(drawnNodes()), moving = new Set(own);
  for (const step of steps()) {
    for (const variable of step) if (shown.has(variable < NODES ? variable : gateOf[variable - NODES])) moving.add(variable);
    if (moving.size >= MOST_WAVES) break;
  }
  return [...moving].slice(0, MOST_WAVES);
}

function drawWave() {
  const room = byId("wave");
  room.replaceChildren();
  if (!steps().length) return;
  const begin = Math.max(0, Math.min(view.step - WINDOW / 2, steps().length - WINDOW));
  const end = Math.min(steps().length, begin + WINDOW), cycle = run().cycle;
  const variables = waveVariables(), left = 130, share = (room.clientWidth - left - 40) / (end - begin + 1);
  const unit = Math.max(10, Math.min(44, share)), width = left + (end - begin + 1) * unit + 10;
  const svg = make("svg", { width, height: variables.length * ROW + 6, viewBox: `0 0 ${width} ${variables.length * ROW + 6}`, role: "img", "aria-label": "waveform" });
  const at = step => left + (step - begin) * unit;
  if (cycle !== null && cycle < steps().length) {
    const from = at(Math.max(cycle, begin));
    svg.append(make("rect", { class: "cycle", x: from, y: 0, width: Math.max(0, at(end) - from), height: variables.length * ROW }));
  }
  const level = (row, bit) => row * ROW + (bit ? 4 : 16), traces = variables.map(() => ["", ""]), value = valuesAfter(begin);
  for (let step = begin; step <= end; step++) {
    if (step > begin) for (const variable of steps()[step - 1]) value[variable] ^= 1;
    variables.forEach((variable, row) => {
      const waits = isUnstable(variable, value) ? 1 : 0, y = level(row, value[variable]);
      if (step > begin && steps()[step - 1].includes(variable)) traces[row][0] += `M${at(step)} ${level(row, 1 - value[variable])}V${y}`;
      traces[row][waits] += `M${at(step)} ${y}h${unit}`;
    });
  }
  variables.forEach((variable, row) => {
    svg.append(make("text", { x: 2, y: row * ROW + 15, class: variable === view.node ? "name" : "" }, cut(nameOf(variable), 18)));
    svg.append(make("path", { class: "trace", d: traces[row][0] || "M0 0" }));
    svg.append(make("path", { class: "waits", d: traces[row][1] || "M0 0" }));
  });
  const x = at(view.step) + unit / 2;
  svg.append(make("line", { class: "cursor", x1: x, x2: x, y1: 0, y2: variables.length * ROW }));
  svg.addEventListener("click", event => go(Math.floor((event.clientX - svg.getBoundingClientRect().left - left) / unit) + begin));
  room.append(svg);
}
