// Places for the nodes of a pattern that nobody has drawn yet. Places are parts of the board's width and height.

const ACROSS = [0, 0.25, 0.5, 0.75, 1]; // where a node may stand in its layer
const TURNS = 4;
const FREE = 20; // pixels to be kept between boxes
const SHORT = 4; // an arrow of fewer half boxes has no room for its figure

/** Whether arrows lead from one node to another. */
function leads(edges, from, to, seen = new Set()) {
  if (from === to) return true;
  seen.add(from);
  return edges.some(([a, b]) => a === from && !seen.has(b) && leads(edges, b, to, seen));
}

/** The arrows less those that would lead back. */
function forward(edges) {
  return edges.reduce((taken, [from, to]) => (leads(taken, to, from) ? taken : [...taken, [from, to]]), []);
}

/** How many arrows lead to each node at most, and sources moved next to what they lead to. */
function layersOf(count, edges) {
  const layers = Array(count).fill(0), onward = forward(edges);
  for (let turn = 1; turn < count; turn++) for (const [from, to] of onward) layers[to] = Math.max(layers[to], layers[from] + 1);
  for (let node = 0; node < count; node++) {
    const after = onward.filter(([from]) => from === node).map(([, to]) => layers[to]);
    if (after.length && !onward.some(([, to]) => to === node)) layers[node] = Math.min(...after) - 1;
  }
  return layers;
}

/** How far a point is from the line between two others. */
function distance(point, from, to) {
  const dx = to.x - from.x, dy = to.y - from.y, length = dx * dx + dy * dy;
  const part = length ? Math.min(1, Math.max(0, ((point.x - from.x) * dx + (point.y - from.y) * dy) / length)) : 0;
  return Math.hypot(point.x - from.x - part * dx, point.y - from.y - part * dy);
}

const side = (a, b, c) => Math.sign((b.x - a.x) * (c.y - a.y) - (b.y - a.y) * (c.x - a.x));
const cross = ([a, b], [c, d]) => side(a, b, c) * side(a, b, d) < 0 && side(c, d, a) * side(c, d, b) < 0;

/** A place as pixels, in units of half a box: two boxes touch where both differences are below 2. */
function inBoxes({ x, y }, { width, height, box }) {
  return { x: (2 * x * width) / (box.width + FREE), y: (2 * y * height) / (box.height + FREE) };
}

/** How hard a layout is to read: boxes on boxes, arrows over boxes, arrows that cross, long and short arrows. */
function cost(places, edges, frame) {
  const at = places.map((place) => inBoxes(place, frame));
  const lines = edges.map((edge) => edge.map((node) => at[node]));
  let sum = 0;
  at.forEach((place, node) => {
    for (const other of at.slice(node + 1)) if (Math.abs(place.x - other.x) < 2 && Math.abs(place.y - other.y) < 2) sum += 40;
    edges.forEach((edge, number) => (sum += !edge.includes(node) && distance(place, ...lines[number]) < 1.1 ? 12 : 0));
  });
  lines.forEach((line, number) => {
    sum += lines.slice(number + 1).filter((other) => cross(line, other)).length * 5;
    const length = Math.hypot(line[0].x - line[1].x, line[0].y - line[1].y);
    sum += length / 4 + 6 * Math.max(0, SHORT - length);
  });
  return sum;
}

/** Moves one node after another to where its layer is easiest to read. */
function settle(places, edges, frame, across) {
  for (let turn = 0; turn < TURNS; turn++)
    for (const place of places) {
      const costs = ACROSS.map((part) => {
        place[across] = part;
        return cost(places, edges, frame);
      });
      place[across] = ACROSS[costs.indexOf(Math.min(...costs))];
    }
  return centred(places, across);
}

/** The same moved to the middle of the board. */
function centred(places, across) {
  const all = places.map((place) => place[across]), shift = 0.5 - (Math.min(...all) + Math.max(...all)) / 2;
  return places.map((place) => ({ ...place, [across]: place[across] + shift }));
}

/** Nodes in layers that go along one side of the board. */
function layered(count, edges, frame, along, across) {
  const layers = layersOf(count, edges), depth = Math.max(0, ...layers) + 1;
  const places = layers.map((layer, node) => {
    const mates = layers.slice(0, node).filter((other) => other === layer).length;
    return { [along]: depth === 1 ? 0.5 : layer / (depth - 1), [across]: ACROSS[(2 + mates + (layer % 2)) % ACROSS.length] };
  });
  return settle(places, edges, frame, across);
}

/** Places for so many nodes: layers from left to right or from top to bottom, whichever is easier to read. */
export function placesFor(count, edges, frame) {
  const [flat, tall] = [layered(count, edges, frame, 'x', 'y'), layered(count, edges, frame, 'y', 'x')];
  return cost(flat, edges, frame) <= cost(tall, edges, frame) ? flat : tall;
}

/** A free place near the middle for one more node. */
export function freePlace(nodes) {
  const far = (place) => Math.min(1, ...nodes.map(({ x, y }) => Math.hypot(x - place.x, y - place.y)));
  const places = [0.5, 0.25, 0.75, 0.12, 0.88].flatMap((y) => [0.5, 0.3, 0.7, 0.14, 0.86].map((x) => ({ x, y })));
  return places.find((place) => far(place) > 0.24) ?? places.reduce((best, place) => (far(place) > far(best) ? place : best));
}
