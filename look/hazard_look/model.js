// What the data of the page say: the circuit, the changes, the runs. A variable is the number of a node, or, after the nodes, of a wire, by
// gate and pin. DATA has for each change the rows of the report, its run, and runs of `why`, which `hazard replay` has accepted.

const MOST_NEAR = 60, MOST_LISTED = 200;
const LOOKS = ["still", "once", "pulses", "pulses", "pulses", "pulses", "open"];
const view = { change: 0, node: 0, run: 0, step: 0, hidden: false, faded: false, whole: false, states: false, timer: null, speed: 2 };
const gateOf = [], sourceOf = [], pinOf = [], firstWire = [], readers = DATA.names.map(() => []);
const byId = id => document.getElementById(id);

DATA.sources.forEach((sources, node) => {
  firstWire[node] = DATA.names.length + gateOf.length;
  sources.forEach((source, pin) => {
    gateOf.push(node);
    sourceOf.push(source);
    pinOf.push(pin + 1);
    if (readers[source][readers[source].length - 1] !== node) readers[source].push(node);
  });
});
const NODES = DATA.names.length, VARIABLES = NODES + gateOf.length;
const OUTPUTS = new Set(DATA.outputs);

const change = () => DATA.changes[view.change];
const isAnalysed = () => Boolean(change() && !change().stopped);
const kindOf = node => change().kinds[node] || DATA.kinds[+change().kind[node]];
const classOf = node => DATA.kinds[+change().kind[node]];
const lookOf = node => (isAnalysed() ? LOOKS[+change().kind[node]] : "still");
const mayMove = node => classOf(node) !== "steady";
const wireName = wire => `${DATA.names[gateOf[wire - NODES]]}(${pinOf[wire - NODES]})`;
const nameOf = variable => (variable < NODES ? DATA.names[variable] : wireName(variable));
const placeOf = node => [DATA.origins[node], DATA.lines[node] ? `${DATA.files[0]}:${DATA.lines[node]}` : ""].filter(Boolean).join(", ");

/** The least and the most edges of a node; without a bound the most is null. */
const rangeOf = node => change().edges[node] || (mayMove(node) ? [1, 1] : [0, 0]);
const rangeWord = ([least, most]) => (most === least ? `${least}` : `${least}..${most ?? ""}`);

/** The runs of the change: first those that say why a node has its hazard, then that of the report. */
function runsOf() {
  if (!isAnalysed()) return [];
  const { why = [], run } = change();
  return [
    ...why.map(one => ({ ...one, title: `why ${DATA.names[one.node]}: ${one.title}` })),
    ...(run ? [{ title: "report: the run of all nodes", steps: run, cycle: null }] : []),
  ];
}

const run = () => runsOf()[view.run];
const steps = () => run()?.steps || [];

/** The values of all variables after some steps of the run that is shown. */
function valuesAfter(count) {
  const value = new Uint8Array(VARIABLES);
  for (let node = 0; node < NODES; node++) value[node] = +change().start[node];
  for (let wire = NODES; wire < VARIABLES; wire++) value[wire] = value[sourceOf[wire - NODES]];
  const made = steps();
  for (let at = 0; at < count; at++) for (const variable of made[at]) value[variable] ^= 1;
  return value;
}

/** What drives a variable asks for. */
function excitation(variable, value) {
  if (variable >= NODES) return value[sourceOf[variable - NODES]];
  if (variable < DATA.inputs) return +(change().target[variable] ?? value[variable]);
  const pins = DATA.sources[variable].length;
  let ones = 0;
  for (let pin = 0; pin < pins; pin++) ones += value[firstWire[variable] + pin];
  switch (DATA.gates[variable]) {
    case "AND": return +(ones === pins);
    case "NAND": return +(ones !== pins);
    case "OR": case "BUFF": return +(ones > 0);
    case "NOR": case "NOT": return +(ones === 0);
    case "XOR": return ones % 2;
    default: return 1 - ones % 2;
  }
}

const isUnstable = (variable, value) => value[variable] !== excitation(variable, value);

/** Whether all nodes are drawn: those of a small circuit, and of a larger one if that is wanted. */
const isWhole = () => NODES <= MOST_NEAR || view.whole && NODES <= DATA.most;

/** The nodes that are drawn: all, or else the cone of the chosen one: what leads to it and may move, what it moves, and then the rest. */
function drawnNodes() {
  if (isWhole()) return DATA.names.map((_, node) => node);
  const near = new Set([view.node]), after = new Set([view.node]);
  const add = list => list.forEach(node => near.size < MOST_NEAR && near.add(node)), moves = node => isAnalysed() && mayMove(node);
  for (const node of near) add(DATA.sources[node].filter(moves));
  for (const node of after) {
    const moved = readers[node].filter(moves);
    add(moved);
    if (near.size < MOST_NEAR) moved.forEach(one => after.add(one));
  }
  add(DATA.sources[view.node]);
  add(readers[view.node]);
  return [...near].sort((a, b) => a - b);
}

/** The steps after which the chosen node has just changed. */
const edgesOf = node => steps().flatMap((step, at) => (step.includes(node) ? [at + 1] : []));

/** Where a run opens: at the first edge of the node, or at its start. */
const opening = node => edgesOf(node)[0] ?? 0;

/** The node that a change opens with: its worst root, or else what pulses across its edge, or an input that changes, or else what may move. */
function usualNode(at) {
  const one = DATA.changes[at];
  if (!one || one.stopped) return 0;
  if (one.hazards.length) return one.hazards[0];
  if (one.across) return +Object.keys(one.across)[0];
  const changed = [...one.target].findIndex((bit, node) => bit !== one.start[node]);
  return Math.max(0, changed >= 0 ? changed : [...one.kind].findIndex(kind => DATA.kinds[+kind] !== "steady"));
}

/** The run that shows most of a node: one of `why`, or else that of the report. */
function usualRun(node) {
  const at = runsOf().findIndex(one => one.node === node);
  return at >= 0 ? at : (change()?.why || []).length;
}
