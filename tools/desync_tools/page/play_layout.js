"use strict";
// Where the nodes stand: their columns stand beside one another as far as the page is wide, and the
// others in bands below. All keeps its size, so that texts can be read.

const HALF = 42, LEFT = 18, RIGHT = 34, TITLED = 100, ABOVE = 60, BELOW = 76, GAP = 20, TURN = 8;

// The columns from left to right: where the first node of each stands, its nodes, and where it ends
// with what stands beside it, which is the title in the case of OUT.
function columnsOf(places) {
  const found = new Map();
  for (const [node, [x]] of Object.entries(places)) {
    const first = node[0] === "S" ? places["M" + node.slice(1)][0] : x;
    if (!found.has(first)) found.set(first, {first, end: first, nodes: []});
    const column = found.get(first);
    column.end = Math.max(column.end, x + HALF + (node === "OUT" ? TITLED : RIGHT));
    column.nodes.push(node);
  }
  return [...found.values()].sort((one, other) => one.first - other.first);
}

// The columns of each band, in as few bands as may be, which are about equally wide.
function bandsOf(columns, room) {
  const count = filled(columns, room).length;
  if (count === 1) return [columns];
  let low = 0, high = room;
  while (high - low > 1) {
    const middle = (low + high) / 2;
    if (filled(columns, middle).length > count) low = middle; else high = middle;
  }
  return filled(columns, high);
}

// The columns of each band, as many as there is room for; one that is too wide has one to itself.
function filled(columns, room) {
  const bands = [];
  for (const column of columns) {
    const band = bands[bands.length - 1];
    if (band && column.end - band[0].first + HALF + LEFT <= room) band.push(column);
    else bands.push([column]);
  }
  return bands;
}

// The place of each node and the number of its band, the level below each band, the whole size.
function laidOut(places, room) {
  const found = {places: {}, band: {}, levels: [], size: [0, 0]};
  let top = 0;
  bandsOf(columnsOf(places), room).forEach((band, number) => {
    const nodes = band.flatMap(column => column.nodes), rows = nodes.map(node => places[node][1]);
    const high = Math.min(...rows), right = LEFT + HALF - band[0].first, down = top + ABOVE - high;
    for (const node of nodes) {
      found.places[node] = [places[node][0] + right, places[node][1] + down];
      found.band[node] = number;
    }
    top = Math.max(...rows) + down + BELOW;
    found.levels.push(top - GAP);
    found.size = [Math.max(found.size[0], band[band.length - 1].end + right), top];
  });
  return found;
}

// A line from the right of one box to the left of another: the level stretch of it, the bent pieces,
// and the middle, where its dots are. Lines that lead back lie on levels of their own, by the lift.
function route(laid, from, to, lift) {
  const [x1, y1] = laid.places[from], [x2, y2] = laid.places[to];
  const bands = [laid.band[from], laid.band[to]], ends = [x1 + HALF, y1, x2 - HALF - 2, y2];
  if (bands[0] !== bands[1]) return between(ends, laid.levels[Math.min(...bands)] + lift);
  return ends[0] < ends[2] ? forward(ends) : backward(ends, Math.max(y1, y2) + 34 + lift);
}

function forward([x1, y1, x2, y2]) {
  const bend = Math.min(60, (x2 - x1) / 2), middle = [(x1 + x2) / 2, (y1 + y2) / 2];
  if (y1 === y2) return {level: [y1, x1, x2 - 8], bent: [[`M${x2 - 9},${y2}H${x2}`, x2]], middle};
  return {bent: [[`M${x1},${y1}C${x1 + bend},${y1} ${x2 - bend},${y2} ${x2},${y2}`, x2, x1]], middle};
}

// Below the boxes.
function backward([x1, y1, x2, y2], low) {
  return {
    level: [low, x2 + 20, x1 - 20],
    bent: [[`M${x1 - 20},${low}C${x1},${low} ${x1 + 34},${low} ${x1},${y1 + 8}`, null, x1],
      [`M${x2 + 20},${low}C${x2},${low} ${x2 - 34},${low} ${x2},${y2 + 8}`, x2]],
    middle: [(x1 + x2) / 2, low],
  };
}

// From one band to another: out to the right, along a level between the bands, in from the left.
function between([x1, y1, x2, y2], low) {
  const out = x1 + TURN, into = x2 - TURN;
  return {
    level: [low, Math.min(out, into), Math.max(out, into)],
    bent: [[`M${x1},${y1}C${x1 + GAP},${y1} ${x1 + GAP},${low} ${out},${low}`, null, x1],
      [`M${into},${low}C${x2 - GAP},${low} ${x2 - GAP},${y2} ${x2},${y2}`, x2]],
    middle: [(x1 + x2) / 2, low],
  };
}

if (typeof module !== "undefined") module.exports = {laidOut, route};
