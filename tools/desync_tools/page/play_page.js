"use strict";
// Draws the run and answers the reader. `told` is what tools/play found in the files. What holds for
// a whole log is worked out once, when it is another one; of the picture, the waves and the log only
// what is in view is drawn, when the reader moves there.

const find = name => document.getElementById(name);
const isRegister = node => node !== "IN" && node !== "OUT";
const ahead = edge => Number(edge[0][0] === "S");
const TALL = 19, UNIT = 18, RAIL = 26, NAMES = 150, LINE = 18, BESIDE = 120, MANY = 2000;

const page = {
  log: told.log, at: 0, clock: 0, timer: null, out: null, known: null, address: null,
  rule: new Rule(told.nodes, told.arcs, told.turns),
};

// ---- What a node shows

function shortened(text) {
  if (text.length <= 11) return text;
  const parts = text.split(" ").map(bits => bits.length > 4 ? hexadecimal(bits) : bits);
  const made = parts.join(" ");
  return made.length <= 12 ? made : made.slice(0, 11) + "\u2026";
}

function hexadecimal(bits) {
  const wide = bits.padStart(Math.ceil(bits.length / 4) * 4, "0");
  return "0x" + wide.match(/..../g).map(digit).join("");
}

function digit(bits) {
  if (bits.includes("x")) return bits === "xxxx" ? "x" : "X";
  return parseInt(bits, 2).toString(16);
}

// The value of a node after so many openings; a slave begins with that of its registers.
function valueOf(node, openings) {
  const rows = told.values[isRegister(node) ? node.slice(1) : node];
  if (!isRegister(node)) return openings > 0 ? rows[openings - 1] || "" : "";
  return openings > 0 || node[0] === "S" ? rows[openings] : "";
}

// ---- What is known of a log

// How many places of a rising list are at most some place.
function upTo(places, place) {
  let low = 0, high = places.length;
  while (low < high) {
    const middle = (low + high) >> 1;
    if (places[middle] <= place) low = middle + 1; else high = middle;
  }
  return low;
}

// For each node the places where it has opened and closed, where its value becomes another than that
// of the trace, or that again, with the reason, and the openings with such values; and the first of
// them. Without an order left out there are none.
function known() {
  if (page.known && page.known.log === page.log && page.known.out === page.out) return page.known;
  const nodes = new Map(told.nodes.map(node => [node, {"+": [], "-": [], from: [], why: [], bad: new Set()}]));
  const watch = newWatch();
  let first = null;
  page.log.forEach((event, place) => {
    nodes.get(event.slice(0, -1))[event.slice(-1)].push(place + 1);
    if (!page.out) return;
    for (const node of watch.fire(event)) noted(nodes.get(node), place + 1, watch.wrong.get(node), watch.opened.get(node));
    if (watch.first && !first) first = {place: place + 1, why: watch.first};
  });
  page.known = {log: page.log, out: page.out, nodes, first};
  return page.known;
}

function noted(one, place, why, opening) {
  if (why) one.bad.add(opening);
  if (!why && one.why.length === 0) return;
  one.from.push(place);
  one.why.push(why);
}

function newWatch() {
  return new Watch(told.nodes, told.edges.map(edge => [...edge, ahead(edge)]));
}

function counts() {
  const {nodes} = known(), found = new Map();
  for (const [node, one] of nodes) {
    for (const sign of "+-") found.set(node + sign, upTo(one[sign], page.at));
  }
  return found;
}

// Why the value of a node need not be that of the trace at present.
function wrong(node) {
  const one = known().nodes.get(node);
  return one.why[upTo(one.from, page.at) - 1] || null;
}

// ---- The picture

function drawn(name, attributes, text) {
  const one = document.createElementNS("http://www.w3.org/2000/svg", name);
  for (const key in attributes) one.setAttribute(key, attributes[key]);
  if (text !== undefined) one.textContent = text;
  return one;
}

function put(into, name, attributes, text) {
  return into.appendChild(drawn(name, attributes, text));
}

// One path along a whole route.
function whole(way) {
  const [y, left, right] = way.level || [];
  return way.bent.map(piece => piece[0]).join("") + (way.level ? `M${left},${y}H${right}` : "");
}

// The pieces of all edges, each once, with its ends from left to right: where a thousand edges run
// along one line, it is one piece.
function pieces(ways) {
  const bent = new Map(), levels = new Map();
  for (const way of ways) {
    for (const [path, tip, start] of way.bent) {
      const ends = [start, tip].filter(x => x !== null && x !== undefined);
      bent.set(path, {path, isTip: tip !== null, left: Math.min(...ends), right: Math.max(...ends)});
    }
    if (!way.level) continue;
    if (!levels.has(way.level[0])) levels.set(way.level[0], []);
    levels.get(way.level[0]).push(way.level.slice(1));
  }
  return [...bent.values(), ...[...levels].flatMap(([y, some]) => stretches(y, some))];
}

// The stretches on one level that lie apart.
function stretches(y, some) {
  const found = [];
  for (const [left, right] of some.sort((one, other) => one[0] - other[0])) {
    const last = found[found.length - 1];
    if (last && left <= last.right) last.right = Math.max(last.right, right);
    else found.push({left, right});
  }
  return found.map(({left, right}) => ({path: `M${left},${y}H${right}`, isTip: false, left, right}));
}

function marker(svg) {
  const arrow = put(put(svg, "defs", {}), "marker",
    {id: "tip", markerWidth: 8, markerHeight: 8, refX: 7, refY: 3, orient: "auto"});
  put(arrow, "path", {d: "M0,0L7,3L0,6", fill: "#777"});
}

// The picture by the room that there is, if it is another one by that; with a scrollbar there is
// less room than before.
function arranged() {
  const net = find("net"), isFit = find("fit").checked;
  for (let tries = 0; tries < 2; tries++) {
    const room = isFit ? net.clientWidth : Infinity, laid = laidOut(told.places, room);
    if (!page.laid || JSON.stringify(laid.band) !== JSON.stringify(page.laid.band)) {
      page.laid = laid;
      picture();
    }
    if (!isFit || net.clientWidth >= room) break;
  }
  showMissing();
  showLines();
}

function picture() {
  const [width, height] = page.laid.size;
  const svg = page.svg = drawn("svg", {viewBox: `0 0 ${width} ${height}`, width, height});
  marker(svg);
  page.edges = told.edges.map((edge, number) => {
    return {edge, way: route(page.laid, edge[0], edge[1], number % 3 * 5)};
  });
  page.pieces = pieces(page.edges.map(one => one.way));
  page.lines = put(svg, "g", {});
  page.missing = put(svg, "g", {});
  page.touched = put(svg, "g", {});
  extraOrders().forEach(arc => extraDrawn(svg, arc));
  page.dots = put(svg, "g", {});
  page.boxes = new Map(told.nodes.map(node => [node, boxDrawn(svg, node)]));
  for (const node of told.nodes) titleDrawn(svg, node);
  find("net").replaceChildren(svg);
}

// The arrows of a node, while the reader points at it.
function touched(node) {
  const some = node ? page.edges.filter(({edge}) => edge.includes(node)) : [];
  page.touched.replaceChildren(...some.map(({edge, way}) => drawn("path",
    {d: whole(way), class: edge[1] === node ? "edge takes" : "edge gives"})));
}

// What of the picture stands in view, and a little beside it.
function inView() {
  const net = find("net"), left = net.scrollLeft - BESIDE;
  const right = left + net.clientWidth + 2 * BESIDE;
  return one => one.left <= right && left <= one.right;
}

// The lines in view, and the edges whose middle is.
function showLines() {
  const isSeen = inView(), attributes = {class: "edge"};
  page.lines.replaceChildren();
  for (const piece of page.pieces.filter(isSeen)) {
    put(page.lines, "path", {d: piece.path, ...attributes, ...piece.isTip && {"marker-end": "url(#tip)"}});
  }
  page.near = page.edges.filter(({way}) => isSeen({left: way.middle[0], right: way.middle[0]}));
}

// The edge one of whose orders is left out.
function showMissing() {
  const order = page.out && page.out.slice(0, 2).join(" ");
  const some = page.edges.filter(({edge: [from, to]}) => [`${from}+ ${to}+`, `${to}- ${from}+`].includes(order));
  page.missing.replaceChildren(...some.flatMap(({way}) => ["edge under", "edge out"].map(
    kind => drawn("path", {d: whole(way), class: kind}))));
}

// The orders that are neither a node's own nor those of a data edge.
function extraOrders() {
  const known = new Set(told.nodes.flatMap(node => [`${node}+ ${node}-`, `${node}- ${node}+`]));
  for (const [from, to] of told.edges) {
    known.add(`${from}+ ${to}+`);
    known.add(`${to}- ${from}+`);
  }
  return told.arcs.filter(arc => !known.has(`${arc[0]} ${arc[1]}`));
}

function extraDrawn(svg, arc) {
  const [from, to] = arc.slice(0, 2).map(event => event.slice(0, -1));
  const line = put(svg, "path", {d: whole(route(page.laid, from, to, -8)), class: "order"});
  put(line, "title", {}, `${arc[0]} to ${arc[1]}, ${arc[2]} tokens`);
}

function boxDrawn(svg, node) {
  const [x, y] = page.laid.places[node];
  const group = put(svg, "g", {class: "node", tabindex: 0, role: "button"});
  const tip = put(group, "title", {});
  const box = put(group, "rect", {class: "box", x: x - HALF, y: y - TALL, width: 2 * HALF, height: 2 * TALL});
  const head = put(group, "text", {x, y: y - 5});
  const value = put(group, "text", {x, y: y + 11, class: "value"});
  group.onclick = () => clicked(node);
  group.onpointerenter = () => { tipShown(node); touched(node); };
  group.onpointerleave = () => touched(null);
  group.onfocus = () => touched(node);
  group.onblur = () => touched(null);
  group.onkeydown = key => { if (key.key === "Enter") clicked(node); };
  return {group, tip, box, head, value};
}

function titleDrawn(svg, node) {
  if (node[0] === "S") return;
  const [x, y] = page.laid.places[node], title = told.titles[isRegister(node) ? node.slice(1) : node];
  const text = title.length > 26 ? title.slice(0, 25) + "\u2026" : title;
  // IN stands at the edge of the picture.
  if (!isRegister(node)) return put(svg, "text", {x: x - HALF, y: y - TALL - 7, class: "title left"}, text);
  const across = (x + page.laid.places["S" + node.slice(1)][0]) / 2;
  put(svg, "text", {x: across, y: y - TALL - 7, class: "title"}, text);
}

// Boxes that look as before are left alone; a tip is written where the reader asks for it.
function showBoxes(counts) {
  for (const [node, box] of page.boxes) {
    const openings = counts.get(node + "+"), isOpen = openings > counts.get(node + "-");
    const event = node + (isOpen ? "-" : "+"), may = page.rule.mayFire(event, counts);
    const why = wrong(node), value = valueOf(node, openings);
    const key = [openings, isOpen, may, why].join();
    if (box.key === key) continue;
    box.key = key;
    box.group.setAttribute("class", ["node", isOpen && "open", may && "may", why && "bad"].filter(Boolean).join(" "));
    box.box.setAttribute("rx", isOpen ? 14 : 2);
    box.head.textContent = node + (openings ? ` turn ${openings}` : "");
    box.value.textContent = why ? "?" : shortened(value) || "\u00b7";
    box.says = `${node} ${isOpen ? "open" : "closed"}, ${why || value || "no value yet"}`;
    box.group.setAttribute("aria-label", box.says);
  }
}

function tipShown(node) {
  const box = page.boxes.get(node), now = counts(), event = nextEvent(node, now);
  const may = page.rule.mayFire(event, now);
  box.tip.textContent = `${box.says}; ${may ? event + " may fire" : waiting(event, now)}`;
}

function nextEvent(node, counts) {
  return node + (counts.get(node + "+") > counts.get(node + "-") ? "-" : "+");
}

function showDots(counts) {
  const seen = new Set(), dots = [];
  for (const {way, edge} of page.near) {
    const [from, to] = edge;
    const full = Math.max(0, counts.get(from + "+") + ahead(edge) - counts.get(to + "+"));
    const room = Math.max(0, counts.get(to + "-") + 1 - ahead(edge) - counts.get(from + "+"));
    const key = [...way.middle, full, room].join();
    if (seen.has(key)) continue;
    seen.add(key);
    for (let place = 0; place < full + room; place++) {
      const cx = way.middle[0] + 9 * (place - (full + room - 1) / 2);
      dots.push(drawn("circle", {cx, cy: way.middle[1], r: 4, class: place < full ? "full" : "room"}));
    }
  }
  page.dots.replaceChildren(...dots);
}

// ---- Times: the log of a timed run is told in the order of its times

function isTimed() {
  return Boolean(told.times) && page.log === told.log;
}

// The time behind some firings of the log.
function timeAt(place) {
  return isTimed() && place > 0 ? told.times[place - 1] : 0;
}

function wholeTime() {
  return Math.max(1, told.times[told.times.length - 1]);
}

// How many units pass in a second: the whole run takes from two minutes down to two seconds.
function rate() {
  return wholeTime() / 120 * Math.pow(60, find("rate").value / 100);
}

// A timed run goes on by some seconds.
function passed(seconds) {
  const clock = page.clock + seconds * rate(), at = Math.max(page.at, upTo(told.times, clock));
  if (at >= page.log.length) {
    stop();
    return go(at);
  }
  if (at > page.at) return go(at, clock);
  page.clock = clock;
  showClock();
  showWaves();
}

function showClock() {
  const time = isTimed() ? `, time ${Math.floor(page.clock)}` : "";
  find("count").textContent = `${page.at} of ${2 * told.nodes.length * told.turns} firings${time}`;
}

function showRate() {
  find("speed").hidden = isTimed();
  find("rated").hidden = !isTimed();
  if (isTimed()) find("units").textContent = `${Number(rate().toPrecision(2))} units a second`;
}

// ---- The waves, as many firings as fit, with the present among them, of the nodes in view

// The firings that stand in the waves, and where: by equal steps or, in a timed run, by their times.
function stretch(room) {
  if (isTimed()) return timedStretch(UNIT * room, UNIT * page.log.length / wholeTime());
  const first = Math.max(0, Math.min(page.at - (room >> 1), page.log.length - room));
  const across = place => NAMES + UNIT * (place - first);
  return {first, last: Math.min(page.log.length, first + room), across, present: across(page.at)};
}

function timedStretch(wide, unit) {
  const begin = Math.max(0, Math.min(page.clock - wide / unit / 2, wholeTime() - wide / unit));
  const first = upTo(told.times, begin), last = upTo(told.times, begin + wide / unit);
  const at = time => NAMES + Math.max(0, time - begin) * unit;
  return {first, last, across: place => at(timeAt(place)), present: at(page.clock)};
}

function showWaves() {
  const room = Math.max(10, Math.floor((find("wave").clientWidth - NAMES - 20) / UNIT));
  const {first, last, across, present} = stretch(room);
  const tall = RAIL * told.nodes.length + 20, svg = page.waves;
  svg.replaceChildren();
  svg.setAttribute("width", NAMES + UNIT * room + 20);
  svg.setAttribute("height", tall);
  if (find("order").value === "clocked") showTurns(svg, first, last, across, tall);
  const top = Math.floor(find("wave").scrollTop / RAIL) - 2, rows = find("wave").clientHeight / RAIL + 4;
  told.nodes.forEach((node, row) => {
    if (top <= row && row <= top + rows) wave(svg, node, row, first, last, across);
  });
  put(svg, "line", {x1: present, x2: present, y1: 0, y2: tall, class: "present"});
}

function showTurns(svg, first, last, across, tall) {
  const size = 2 * told.nodes.length;
  for (let place = Math.ceil(first / size) * size; place <= last; place += size) {
    put(svg, "line", {x1: across(place), x2: across(place), y1: 0, y2: tall, class: "turn"});
    put(svg, "text", {x: across(place) + 4, y: tall - 2, class: "left"}, `turn ${place / size}`);
  }
}

function wave(svg, node, row, first, last, across) {
  const low = RAIL * row + 24, title = told.titles[isRegister(node) ? node.slice(1) : node];
  put(svg, "text", {x: 6, y: low - 3, class: "left"}, `${node} ${title}`.slice(0, 24));
  const {"+": opens, "-": shuts, bad} = known().nodes.get(node);
  put(svg, "path", {class: "rail", d: `M${across(first)},${low}H${across(last)}`});
  const begun = upTo(opens, first - 1);
  if (node[0] === "S" && begun === 0) written(svg, valueOf(node, 0), first, opens.length > 0 ? opens[0] : last, low, across);
  for (let k = Math.max(0, begun - 1); k < opens.length && opens[k] <= last; k++) {
    const shut = k < shuts.length ? shuts[k] : last, next = k + 1 < opens.length ? opens[k + 1] : last;
    const from = Math.max(first, opens[k]), to = Math.min(last, Math.max(shut, from));
    const width = Math.max(isTimed() ? 2 : 0, across(to) - across(from));
    if (shut > first) put(svg, "rect", {class: "up", x: across(from), y: low - 16, width, height: 16});
    written(svg, bad.has(k + 1) ? "?" : valueOf(node, k + 1), from, Math.min(next, last), low, across);
  }
}

// A value from one place on, where there is room up to another.
function written(svg, value, from, to, low, across) {
  const text = shortened(value);
  if (text.length * 7 < across(to) - across(from) + 7) put(svg, "text", {x: across(from) + 3, y: low - 4, class: "value left"}, text);
}

// ---- The log

function showLog() {
  const room = Math.max(5, Math.floor(find("log").clientHeight / LINE) - 1);
  const first = Math.max(0, Math.min(page.at - (room >> 1), page.log.length - room));
  const {nodes} = known();
  const lines = page.log.slice(first, first + room).map((event, place) => {
    const line = document.createElement("div"), number = first + place + 1;
    const turn = upTo(nodes.get(event.slice(0, -1))[event.slice(-1)], number);
    line.textContent = `${String(isTimed() ? timeAt(number) : number).padStart(4)} ${event} ${turn}`;
    line.className = number === page.at ? "now" : number > page.at ? "later" : "";
    line.onclick = () => go(number);
    return line;
  });
  find("log").replaceChildren(...lines);
}

// ---- What the reader does

function show() {
  const now = counts(), {first} = known();
  showBoxes(now);
  showDots(now);
  showWaves();
  showLog();
  find("at").max = page.log.length;
  find("at").value = page.at;
  showClock();
  showRate();
  clearTimeout(page.address);
  page.address = setTimeout(() => history.replaceState(null, "", "#" + page.at), 250);
  if (first && first.place <= page.at) say(first.why, true);
}

// Calls a function once before the next drawing, however often it is asked for.
function once(redraw) {
  let isDue = false;
  return () => {
    if (isDue) return;
    isDue = true;
    requestAnimationFrame(() => {
      isDue = false;
      redraw();
    });
  };
}

function say(text, isBad) {
  find("says").textContent = text;
  find("says").className = isBad ? "bad" : "";
}

function go(at, clock) {
  page.at = Math.max(0, Math.min(page.log.length, at));
  page.clock = clock === undefined ? timeAt(page.at) : clock;
  say(page.at > 0 ? `${page.log[page.at - 1]} has fired` : "nothing has fired");
  show();
}

function waiting(event, counts) {
  if (page.rule.isOver(event, counts)) return `${event} may not fire: it has fired once for each vector`;
  const sources = page.rule.lacking(event, counts).map(arc => arc[0]);
  return `${event} may not fire: it waits for ${sources.join(" and ")}`;
}

function clicked(node) {
  stop();
  const now = counts(), event = nextEvent(node, now);
  if (!page.rule.mayFire(event, now)) return say(waiting(event, now), true);
  page.log = page.rule.brought(page.log, page.at, event);
  go(page.at + 1);
}

function stop() {
  clearInterval(page.timer);
  page.timer = null;
  find("play").textContent = "play";
}

function play() {
  if (page.timer) return stop();
  if (page.at >= page.log.length) go(0);
  find("play").textContent = "stop";
  if (isTimed()) return playTimed();
  page.timer = setInterval(() => page.at < page.log.length ? go(page.at + 1) : stop(), 1000 / find("speed").value);
}

function playTimed() {
  let last = performance.now();
  page.timer = setInterval(() => {
    const now = performance.now(), seconds = (now - last) / 1000;
    last = now;
    passed(seconds);
  }, 40);
}

// A log by the choices: the order of the run, or as with a clock; one node slow from here on.
function chosen() {
  stop();
  const slow = find("slow").value, order = find("order").value;
  const start = order === "clocked" ? page.rule.clocked() : told.log;
  if (slow) {
    page.log = page.rule.delayed(page.log, page.at, node => node === slow ? 12 : 1);
    say(`${slow} takes twelve times as long from here on`);
  } else {
    page.log = start;
    page.at = Math.min(page.at, start.length);
    page.clock = timeAt(page.at);
    say("");
  }
  show();
}

function leaveOut() {
  stop();
  const arc = told.arcs[find("out").value] || null;
  page.out = arc;
  page.rule = new Rule(told.nodes, told.arcs.filter(one => one !== arc), told.turns);
  page.log = told.log;
  showMissing();
  find("order").value = "log";
  find("slow").value = "";
  const made = arc && page.rule.runAhead(arc[0], arc[1], arc[2]);
  if (!made) {
    go(0);
    if (arc) say(told.turns > arc[2] ? `the other orders keep ${arc[1]} behind ${arc[0]} without it` : "the run is too short to see it");
    return;
  }
  page.log = page.rule.delayed(made, made.length, () => 1);
  const {first} = known();
  go(first ? first.place : made.length);
}

function save() {
  const fired = page.rule.counts([], 0);
  const lines = page.log.slice(0, page.at).map(event => {
    add(fired, event);
    return `${event} ${fired.get(event)}\n`;
  });
  const link = document.createElement("a");
  link.href = URL.createObjectURL(new Blob(lines, {type: "text/plain"}));
  link.download = "run.log";
  link.click();
}

function option(select, value, text) {
  const one = document.createElement("option");
  one.value = value;
  one.textContent = text;
  find(select).appendChild(one);
}

// The orders of data edges; where there are many, up to twenty thousand, once the reader asks.
function listOrders() {
  find("out").onfocus = find("out").onpointerdown = null;
  const kept = new Set(told.edges.flatMap(([from, to]) => [`${from}+ ${to}+`, `${to}- ${from}+`]));
  told.arcs.forEach((arc, number) => {
    if (kept.has(`${arc[0]} ${arc[1]}`)) option("out", number, `${arc[0]} to ${arc[1]}`);
  });
}

function begin() {
  find("head").textContent = `${told.name}: ${told.nodes.length} nodes, ${told.turns} vectors`;
  for (const speed of [1, 2, 5, 20, 100]) option("speed", speed, `${speed} a second`);
  find("speed").value = 2;
  if (told.times) find("order").options[0].textContent = "by the times";
  find("rate").oninput = showRate;
  for (const node of told.nodes) option("slow", node, node);
  if (told.arcs.length <= MANY) listOrders();
  else find("out").onfocus = find("out").onpointerdown = listOrders;
  const buttons = {first: () => go(0), back: () => go(page.at - 1), step: () => go(page.at + 1)};
  for (const name in buttons) find(name).onclick = () => { stop(); buttons[name](); };
  find("play").onclick = play;
  find("speed").onchange = () => { if (page.timer) { stop(); play(); } };
  find("at").oninput = moved => { stop(); go(Number(moved.target.value)); };
  find("order").onchange = () => { find("slow").value = ""; chosen(); };
  find("slow").onchange = chosen;
  find("out").onchange = leaveOut;
  find("save").onclick = save;
  document.onkeydown = key => pressed(key);
  window.onhashchange = () => go(Number(location.hash.slice(1)) || 0);
  find("net").onscroll = once(() => { showLines(); showDots(counts()); });
  find("wave").onscroll = once(showWaves);
  find("fit").onchange = () => { arranged(); showBoxes(counts()); showDots(counts()); };
  window.onresize = once(() => {
    arranged();
    showBoxes(counts());
    showDots(counts());
    showWaves();
    showLog();
  });
  page.waves = drawn("svg", {});
  find("wave").replaceChildren(page.waves);
  arranged();
  go(Number(location.hash.slice(1)) || 0);
}

function pressed(key) {
  if (["INPUT", "SELECT", "BUTTON"].includes(key.target.tagName) && key.key !== "Home" && key.key !== "End") return;
  const moves = {
    ArrowLeft: () => { stop(); go(page.at - 1); }, ArrowRight: () => { stop(); go(page.at + 1); },
    Home: () => { stop(); go(0); }, End: () => { stop(); go(page.log.length); }, " ": play,
  };
  if (!moves[key.key]) return;
  key.preventDefault();
  moves[key.key]();
}

begin();
