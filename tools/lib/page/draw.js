// What a plot draws: scales with their ticks, and points as a line in steps, or as a band where they go up and down too fast for one.

import { drawn } from "/words.js";

// Pixels in which a value that turns twice is drawn as a band.
const BIN = 4, TURNS = 2;

function niceStep(span, count) {
  const raw = span / count, power = 10 ** Math.floor(Math.log10(raw)), part = raw / power;
  return (part <= 1 ? 1 : part <= 2 ? 2 : part <= 5 ? 5 : 10) * power;
}

function ticksOf(low, high, count, whole) {
  let step = niceStep(high - low, count);
  if (whole) step = Math.max(1, Math.round(step));
  const found = [];
  for (let at = Math.ceil(low / step) * step; at <= high + step / 1e6 && found.length < 20; at += step) found.push(Number(at.toPrecision(12)));
  return found;
}

function compact(value) {
  const size = Math.abs(value);
  if (size >= 1e6 || (size > 0 && size < 1e-3)) return value.toExponential(2).replace(/\.?0+e/, "e").replace("e+", "e");
  return String(Number(value.toPrecision(6)));
}

const least = (values) => values.reduce((a, b) => Math.min(a, b), Infinity);
const greatest = (values) => values.reduce((a, b) => Math.max(a, b), -Infinity);

// The limits of a value, those that do not press its own course flat.
export function limitsOf(words, known) {
  if (!words || !known.length) return [];
  const low = least(known), high = greatest(known), room = 4 * Math.max(high - low, Math.abs(low), Math.abs(high), 1e-9);
  return ["min", "low", "high", "max"].filter((name) => words[name] !== undefined).map((name) => [name, Number(words[name])])
    .filter(([, value]) => value >= low - room && value <= high + room);
}

// The scale of values that share an axis; `kinds` are their types, `marks` numbers that must be on it.
export function scaleOf(kinds, known, marks) {
  const values = known.concat(marks), kind = kinds[0], same = kinds.every((it) => it.k === kind.k);
  let low = values.length ? least(values) : 0, high = values.length ? greatest(values) : 1;
  if (same && kind.k === "bool") return { low: -0.15, high: 1.15, ticks: [[0, "FALSE"], [1, "TRUE"]] };
  if (kinds.length === 1 && kind.k === "enum") {
    const all = kind.v.filter(([, number]) => number >= low - 1 && number <= high + 1).slice(0, 12).map(([name, number]) => [number, name]);
    return { low: low - 0.6, high: high + 0.6, ticks: all };
  }
  if (low === high) { const room = Math.abs(low) * 0.1 || 1; low -= room; high += room; }
  const room = (high - low) * 0.06, whole = kinds.every((it) => it.k !== "real");
  low -= room; high += room;
  return { low, high, ticks: ticksOf(low, high, 5, whole).map((value) => [value, compact(value)]) };
}

// The least and the greatest in each few pixels, and whether the value turns there too often for a line.
function binned(points, x) {
  const bins = new Map();
  let before = null, way = 0;
  for (const [moment, value] of points) {
    if (value === null) { before = null; way = 0; continue; }
    const n = Math.floor(x(moment) / BIN);
    if (!bins.has(n)) bins.set(n, { n, low: before === null ? value : before, high: before === null ? value : before, turns: 0 });
    const bin = bins.get(n), step = before === null ? 0 : Math.sign(value - before);
    bin.low = Math.min(bin.low, value);
    bin.high = Math.max(bin.high, value);
    bin.turns += step && way && step !== way ? 1 : 0;
    way = step || way;
    before = value;
  }
  return bins;
}

function polygon(run, y) {
  const first = run[0].n * BIN, up = run.map((bin) => `V${y(bin.high).toFixed(1)}H${(bin.n + 1) * BIN}`).join("");
  const down = run.slice().reverse().map((bin) => `V${y(bin.low).toFixed(1)}H${bin.n * BIN}`).join("");
  return `M${first} ${y(run[0].low).toFixed(1)}${up}${down}Z`;
}

// A line in steps: a value stands until the next one. Where many points share a place, the least and the greatest are drawn.
class Line {
  constructor(y) {
    this.y = y; this.said = ""; this.open = false; this.column = null; this.low = this.high = this.end = 0;
  }

  flush() {
    if (this.column !== null && this.high > this.low) {
      this.said += `V${this.y(this.low).toFixed(1)}V${this.y(this.high).toFixed(1)}V${this.y(this.end).toFixed(1)}`;
    }
    this.column = null;
  }

  // The line up to a place, where it ends.
  stop(at) {
    this.flush();
    if (this.open) this.said += `H${at}`;
    this.open = false;
  }

  begin(at, value) {
    this.said += `M${at} ${this.y(value).toFixed(1)}`;
    this.open = true;
  }

  add(at, value) {
    if (this.column === at) {
      this.low = Math.min(this.low, value); this.high = Math.max(this.high, value); this.end = value;
      return;
    }
    this.flush();
    if (this.open) this.said += `H${at}V${this.y(value).toFixed(1)}`;
    else this.begin(at, value);
    this.column = at; this.low = this.high = this.end = value;
  }
}

// The path of a line, and that of the bands where a line would be a block.
export function traced(points, x, y, last) {
  const bins = binned(points, x), line = new Line(y);
  let band = "", run = [], stood = 0;
  const close = (at) => {
    if (!run.length) return;
    band += polygon(run, y);
    line.begin(Math.min((run[run.length - 1].n + 1) * BIN, at), stood);
    run = [];
  };
  for (const [moment, value] of points) {
    const at = Math.round(x(moment) * 2) / 2, bin = value === null ? null : bins.get(Math.floor(x(moment) / BIN));
    if (bin && bin.turns >= TURNS) {
      if (run.length && bin.n > run[run.length - 1].n + 1) close(at);
      if (!run.length) line.stop(bin.n * BIN);
      if (run[run.length - 1] !== bin) run.push(bin);
      stood = value;
      continue;
    }
    close(at);
    if (value === null) line.stop(at);
    else line.add(at, value);
  }
  close(x(last));
  line.stop(x(last).toFixed(1));
  return { line: line.said, band };
}

export function axis(scale, y, [left, right], side) {
  const at = side === "left" ? left - 8 : right + 8, anchor = side === "left" ? "end" : "start";
  return scale.ticks.flatMap(([value, text]) => [
    ...(side === "left" ? [drawn("line", { x1: left, x2: right, y1: y(value), y2: y(value), class: "grid" })] : []),
    drawn("text", { x: at, y: y(value) + 4, "text-anchor": anchor, class: "tick" }, text)]);
}
