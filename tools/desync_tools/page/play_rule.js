"use strict";
// The rule of firing, and orders of firings that it allows. An event is a node's name with + or -,
// an arc [source, target, tokens], counts a map from events to how often they have fired.

class Rule {
  constructor(nodes, arcs, turns) {
    this.turns = turns;
    this.events = nodes.flatMap(node => [node + "+", node + "-"]);
    this.into = new Map(this.events.map(event => [event, []]));
    this.behind = new Map(this.events.map(event => [event, []]));
    for (const arc of arcs) {
      this.into.get(arc[1]).push(arc);
      this.behind.get(arc[0]).push(arc);
    }
  }

  // What has fired in the first lines of a log.
  counts(log, at) {
    const counts = new Map(this.events.map(event => [event, 0]));
    for (let place = 0; place < at; place++) add(counts, log[place]);
    return counts;
  }

  // The arcs that lack a token for the next firing of an event.
  lacking(event, counts) {
    const next = counts.get(event) + 1;
    return this.into.get(event).filter(arc => counts.get(arc[0]) + arc[2] < next);
  }

  isOver(event, counts) {
    return counts.get(event) >= this.turns;
  }

  mayFire(event, counts) {
    return !this.isOver(event, counts) && this.lacking(event, counts).length === 0;
  }

  // The first line of a log that may not fire there, with the reason; null where all may.
  firstFault(log) {
    const counts = this.counts(log, 0);
    for (let line = 0; line < log.length; line++) {
      const event = log[line];
      if (this.isOver(event, counts)) return {line, why: "over limit"};
      const [arc] = this.lacking(event, counts);
      if (arc) return {line, why: "not enabled", source: arc[0]};
      add(counts, event);
    }
    return null;
  }

  // The log with an event that may fire at a place brought forward to it. An event that may fire
  // takes nothing from another, so what stood between may fire behind it as before.
  brought(log, at, event) {
    const found = log.indexOf(event, at);
    const rest = found < 0 ? log.slice(at) : log.slice(at, found).concat(log.slice(found + 1));
    return log.slice(0, at).concat([event], rest);
  }

  // The events behind all that they wait for in the same turn.
  ranked() {
    const rank = new Map(this.events.map(event => [event, 0]));
    const open = new Map();
    const free = arcs => arcs.filter(arc => arc[2] === 0);
    for (const event of this.events) open.set(event, free(this.into.get(event)).length);
    const ready = this.events.filter(event => open.get(event) === 0);
    for (const event of ready) {
      for (const arc of free(this.behind.get(event))) {
        rank.set(arc[1], Math.max(rank.get(arc[1]), rank.get(event) + 1));
        add(open, arc[1], -1);
        if (open.get(arc[1]) === 0) ready.push(arc[1]);
      }
    }
    return ready.sort((one, other) => rank.get(one) - rank.get(other));
  }

  // As with a clock: each turn is done before the next one begins.
  clocked() {
    const line = this.ranked();
    return Array.from({length: this.turns}, () => line).flat();
  }

  // A log from its first lines on, where each node takes its delay once it may fire.
  delayed(log, at, delayOf) {
    const front = new Front(this, this.counts(log, at)), made = log.slice(0, at), due = new Map();
    let now = 0;
    const look = event => {
      if (!due.has(event) && front.mayFire(event)) {
        due.set(event, now + delayOf(event.slice(0, -1)));
      }
    };
    this.events.forEach(look);
    while (due.size > 0) {
      let first = null, least = Infinity;
      for (const [event, time] of due) if (time < least) [first, least] = [event, time];
      now = least;
      due.delete(first);
      front.fire(first);
      made.push(first);
      look(first);
      for (const arc of this.behind.get(first)) look(arc[1]);
    }
    return made;
  }

  // A log in which an event fires more often than an order with some tokens would let it, while the
  // order's source waits; null where the other orders do not let it either.
  runAhead(source, target, tokens) {
    const counts = this.counts([], 0), made = [];
    let isDone = false;
    while (!isDone) {
      isDone = true;
      for (const event of this.events) {
        if (event === source || event !== target && counts.get(event) > tokens) continue;
        if (counts.get(target) <= tokens && this.mayFire(event, counts)) {
          add(counts, event);
          made.push(event);
          isDone = false;
        }
      }
    }
    return counts.get(target) > tokens ? made : null;
  }
}

// How many arcs lack a token for the next firing of each event, kept up while events fire: a firing
// looks at the arcs of its event alone.
class Front {
  constructor(rule, counts) {
    this.rule = rule;
    this.counts = counts;
    this.lacks = new Map(rule.events.map(event => [event, rule.lacking(event, counts).length]));
  }

  mayFire(event) {
    return this.lacks.get(event) === 0 && !this.rule.isOver(event, this.counts);
  }

  // An arc from an event to itself is neither gained nor lost.
  fire(event) {
    add(this.counts, event);
    const number = this.counts.get(event);
    for (const [source, , tokens] of this.rule.into.get(event)) {
      if (source !== event && this.counts.get(source) + tokens === number) add(this.lacks, event);
    }
    for (const [, target, tokens] of this.rule.behind.get(event)) {
      const is = target !== event && number + tokens === this.counts.get(target) + 1;
      if (is) add(this.lacks, target, -1);
    }
  }
}

// The nodes whose value need not be that of the trace after some firings, with the reason, where an
// order may be missing. An edge is [producer, consumer, how far the producer begins ahead].
class Watch {
  constructor(nodes, edges) {
    this.opened = new Map(nodes.map(node => [node, 0]));
    this.closed = new Map(nodes.map(node => [node, 0]));
    this.wrong = new Map();
    this.first = null;
    this.from = new Map(nodes.map(node => [node, []]));
    this.to = new Map(nodes.map(node => [node, []]));
    for (const edge of edges) {
      this.from.get(edge[1]).push(edge);
      this.to.get(edge[0]).push(edge[1]);
    }
  }

  // Fires an event, and gives the nodes whose value may be another then.
  fire(event) {
    const node = event.slice(0, -1), isOpening = event.endsWith("+");
    add(isOpening ? this.opened : this.closed, node);
    const open = isOpening ? this.reached(node) : [];
    this.settle(open);
    return open;
  }

  isOpen(node) {
    return this.opened.get(node) > this.closed.get(node);
  }

  // The open nodes that see what a node has: itself, and through open ones what follows it.
  reached(node) {
    const found = new Set([node]);
    for (const one of found) {
      for (const next of this.to.get(one)) if (this.isOpen(next)) found.add(next);
    }
    return [...this.opened.keys()].filter(one => found.has(one) && this.isOpen(one));
  }

  // What is open has what its producers have now: first who came too early or too late, and then,
  // until nothing is new, who takes from such a one.
  settle(open) {
    for (const node of open) this.wrong.set(node, this.mistimed(node));
    this.first = this.first || open.map(node => this.wrong.get(node)).find(Boolean) || null;
    let isNew = true;
    while (isNew) {
      isNew = false;
      for (const node of open.filter(one => !this.wrong.get(one))) {
        const edge = this.from.get(node).find(one => this.wrong.get(one[0]));
        if (edge) this.wrong.set(node, `${node} took the value of ${edge[0]}`);
        isNew = isNew || Boolean(edge);
      }
    }
  }

  // Why the value of a producer is not that of a node's own turn.
  mistimed(node) {
    for (const [producer, , ahead] of this.from.get(node)) {
      const is = this.opened.get(producer) + ahead, wanted = this.opened.get(node);
      if (is > wanted) return `${producer} opened again before ${node} had stored what it gave: that value is overwritten`;
      if (is < wanted) return `${node} opened before ${producer} had its next value: it has an old one`;
    }
    return null;
  }
}

function add(counts, event, by = 1) {
  counts.set(event, counts.get(event) + by);
}

if (typeof module !== "undefined") module.exports = {Rule, Watch};
