"use strict";
// Where the boxes of the circuit stand, and which way its wires take between them. `page.js` follows in the same script.

const BOX = { width: 112, height: 46, across: 62, down: 26 };
// room for wires around the boxes, and between two bands of columns
const ROOM = { left: 46, right: 50, above: 14, below: 44, between: 64 };
const MOST_BANDS = 4, LARGER = 1.15;

/** The place of each drawn node: that of Graphviz, or one by layers. */
function placesOf(nodes) {
  if (DATA.places && nodes.length === NODES) {
    const onScreen = ([x, y]) => ({ x: x * 112 - 36, y: y * 80 - 4 });
    return new Map(nodes.map(node => [node, onScreen(DATA.places[node])]));
  }
  const layers = layersOf(nodes), places = new Map();
  const tallest = Math.max(...layers.map(layer => layer.length));
  layers.forEach((layer, column) => layer.forEach((node, at) => places.set(node, {
    x: 24 + column * (BOX.width + BOX.across),
    y: 16 + (at + (tallest - layer.length) / 2) * (BOX.height + BOX.down),
  })));
  return places;
}

/** The nodes by layers: each after those that it reads, but for the wires that close a loop. */
function layersOf(nodes) {
  const shown = new Set(nodes), depth = new Map(), open = new Set();
  for (const root of nodes) {
    const waiting = [root];
    while (waiting.length) {
      const node = waiting[waiting.length - 1];
      open.add(node);
      const isNext = source => shown.has(source) && !depth.has(source) && !open.has(source);
      const next = depth.has(node) ? undefined : DATA.sources[node].find(isNext);
      if (next !== undefined) {
        waiting.push(next);
        continue;
      }
      const before = DATA.sources[node].filter(source => depth.has(source)).map(source => depth.get(source) + 1);
      if (!depth.has(node)) depth.set(node, Math.max(0, ...before));
      waiting.pop();
    }
  }
  const layers = [];
  for (const node of nodes) (layers[depth.get(node)] = layers[depth.get(node)] || []).push(node);
  return ordered(layers.filter(Boolean));
}

/** Layers whose nodes stand near those that they read and that read them. */
function ordered(layers) {
  const place = new Map();
  const settle = layer => layer.forEach((node, at) => place.set(node, at - layer.length / 2));
  layers.forEach(settle);
  for (let round = 0; round < 6; round++) {
    const neighbours = round % 2 ? node => readers[node] : node => DATA.sources[node];
    for (const layer of round % 2 ? [...layers].reverse() : layers) {
      const weight = new Map(layer.map(node => {
        const near = neighbours(node).filter(other => place.has(other)).map(other => place.get(other));
        return [node, near.length ? near.reduce((sum, at) => sum + at, 0) / near.length : place.get(node)];
      }));
      layer.sort((a, b) => weight.get(a) - weight.get(b));
      settle(layer);
    }
  }
  return layers;
}

/** The columns of boxes between two places, from left to right: their left edges, and the tops of their boxes. */
function columnsBetween(left, right, places) {
  const columns = new Map();
  for (const { x, y } of places.values()) {
    if (x > left && x + BOX.width < right) columns.set(Math.round(x), [...(columns.get(Math.round(x)) || []), y]);
  }
  return [...columns].sort((one, other) => one[0] - other[0]);
}

/** The height nearest to a wanted one at which a wire passes a column without touching its boxes. */
function freeHeight(tops, wanted, room) {
  return [wanted, ...tops.flatMap(top => [top - room, top + BOX.height + room])]
    .filter(y => tops.every(top => y < top - 5 || y > top + BOX.height + 5))
    .reduce((best, one) => (Math.abs(one - wanted) < Math.abs(best - wanted) ? one : best));
}

/** What the boxes and the wires around them take. */
function extentOf(places) {
  const xs = [...places.values()].map(place => place.x), ys = [...places.values()].map(place => place.y);
  const left = Math.min(...xs) - ROOM.left, top = Math.min(...ys) - ROOM.above;
  return { left, top, width: Math.max(...xs) + BOX.width + ROOM.right - left, height: Math.max(...ys) + BOX.height + ROOM.below - top };
}

/** The places, with their columns in bands, one below the other, as long as a canvas of this size shows more bands clearly larger. */
function inBands(places, canvas) {
  const columns = [...new Set([...places.values()].map(place => Math.round(place.x)))].sort((one, other) => one - other);
  let best = places, scale = 0;
  for (let count = 1; count <= Math.min(MOST_BANDS, columns.length); count++) {
    const made = banded(places, columns, Math.ceil(columns.length / count)), { width, height } = extentOf(made);
    const larger = Math.min(canvas.width / width, canvas.height / height, MOST_FITTED);
    if (larger > LARGER * scale) [best, scale] = [made, larger];
  }
  return best;
}

/** The places in bands of so many columns. Each has the heights between the bands: the one above its own, and the one below. */
function banded(places, columns, most) {
  const bands = [], made = new Map();
  for (const [node, place] of places) {
    const column = columns.indexOf(Math.round(place.x)), number = Math.floor(column / most);
    (bands[number] = bands[number] || []).push({ node, x: columns[column % most], y: place.y });
  }
  let top = Math.min(...[...places.values()].map(place => place.y));
  bands.forEach((band, number) => {
    const first = Math.min(...band.map(({ y }) => y)), height = Math.max(...band.map(({ y }) => y)) - first + BOX.height;
    for (const { node, x, y } of band) made.set(node, { x, y: y - first + top, band: number, above: top - ROOM.between / 2, below: top + height + ROOM.between / 2 });
    top += height + ROOM.between;
  });
  return made;
}

/** The path of a wire from one band to another: between the columns, and level between the bands if it passes a column. */
function across(x1, y1, x2, y2, lane, level) {
  const turn = 34 + 12 * (lane % 3), y = level + 5 * (lane % 7) - 15;
  if (x2 <= x1) return `M${x1} ${y1}C${x1 + turn} ${y1} ${x1 + turn} ${y} ${x1} ${y}H${x2}C${x2 - turn} ${y} ${x2 - turn} ${y2} ${x2} ${y2}`;
  if (x2 < x1 + BOX.width) return `M${x1} ${y1}C${x1 + turn} ${y1} ${x2 - turn} ${y2} ${x2} ${y2}`;
  return `M${x1} ${y1}C${x1 + turn} ${y1} ${x1 + 8} ${y} ${x1 + 52} ${y}H${x2 - 52}C${x2 - 8} ${y} ${x2 - turn} ${y2} ${x2} ${y2}`;
}

/** The path of a wire that goes on to the right: level at each column of boxes, and there between them. */
function forward(x1, y1, x2, y2, pin, places) {
  let at = { x: x1, y: y1 }, path = `M${x1} ${y1}`;
  const curve = (x, y) => {
    const bend = Math.max(8, Math.min(60, (x - at.x) / 2));
    return `C${at.x + bend} ${at.y} ${x - bend} ${y} ${x} ${y}`;
  };
  for (const [x, tops] of columnsBetween(x1, x2, places)) {
    const straight = at.y + (y2 - at.y) * (x + BOX.width / 2 - at.x) / (x2 - at.x);
    const y = freeHeight(tops, straight, 9 + 4 * (pin % 4));
    path += curve(x, y) + `H${x + BOX.width}`;
    at = { x: x + BOX.width, y };
  }
  return path + curve(x2, y2);
}

/**
 * The path of a wire that closes a loop. It turns behind its source, goes back to the left, level between the boxes of each column
 * from that of the source to that of the target, and turns again in front of its target. `lane`, 0 to 2, keeps such wires apart.
 */
function backward(x1, y1, x2, y2, lane, places) {
  const turn = 34 + 12 * lane, columns = columnsBetween(x2 - 1, x1 + 1, places).reverse();
  let at = { x: x1, y: y1 }, path = `M${x1} ${y1}`;
  columns.forEach(([x, tops], number) => {
    const right = x + BOX.width, bend = (at.x - right) / 2;
    const y = freeHeight(tops, y1 + (y2 - y1) * (number + 1) / (columns.length + 1), 7 + 3 * lane);
    path += number ? `C${at.x - bend} ${at.y} ${right + bend} ${y} ${right} ${y}` : `C${x1 + turn} ${y1} ${x1 + turn} ${y} ${x1} ${y}`;
    path += `H${x}`;
    at = { x, y };
  });
  return path + `C${x2 - turn} ${at.y} ${x2 - turn} ${y2} ${x2} ${y2}`;
}
