"use strict";
// A leaf: node, low, high (ack s, send s, ratio), multiplier, increment, wait (ms), share (thousandths, or null).
const AXES = ["ack gap", "send gap", "ratio"];
const UNITS = [" s", " s", ""];
const STOPS = [[68, 1, 84], [59, 82, 139], [33, 145, 140], [94, 201, 98], [253, 231, 37]];

function edges(leaves, axis) {
  const all = new Set();
  for (const leaf of leaves) { all.add(leaf.low[axis]); all.add(leaf.high[axis]); }
  return [...all].sort((a, b) => a - b);
}

// The leaves between two neighbouring edges of an axis.
function sliceOf(leaves, axis, i) {
  const ends = edges(leaves, axis);
  return leaves.filter(leaf => leaf.low[axis] <= ends[i] && leaf.high[axis] >= ends[i + 1]);
}

function valueOf(leaf, kind) {
  if (kind === "window") return Math.min(1e6, Math.max(0, Math.trunc(20 * leaf.multiplier) + leaf.increment));
  return leaf[kind] === null ? 0 : leaf[kind];
}

function colourOf(part) {
  const at = Math.min(Math.max(part, 0), 1) * (STOPS.length - 1);
  const i = Math.min(Math.floor(at), STOPS.length - 2);
  const mix = STOPS[i].map((a, k) => Math.round(a + (STOPS[i + 1][k] - a) * (at - i)));
  return `rgb(${mix.join(",")})`;
}

// Where a value stands between 0 and 1: true to scale, or each cut as wide as the next.
function placeOf(ends, x, trueScale) {
  if (trueScale) return (x - ends[0]) / (ends[ends.length - 1] - ends[0]);
  return ends.indexOf(x) / (ends.length - 1);
}

const short = x => String(Number(x.toPrecision(6)));

function shown(kind, x) {
  if (kind === "wait") return `${short(x)} ms`;
  if (kind === "share") return `${(x / 10).toFixed(1)}%`;
  return short(x);
}

function page() {
  const data = JSON.parse(document.getElementById("data").textContent);
  const leaves = data.leaves;
  const get = id => document.getElementById(id);
  const make = (name, attributes, text) => {
    const element = document.createElementNS("http://www.w3.org/2000/svg", name);
    for (const [key, value] of Object.entries(attributes)) element.setAttribute(key, value);
    if (text !== undefined) element.textContent = text;
    return element;
  };
  let chosen = null;

  function tell(leaf) {
    const share = leaf.share === null ? "" : `, share ${shown("share", leaf.share)}`;
    const box = AXES.map((name, a) => `${name} ${short(leaf.low[a])} to ${short(leaf.high[a])}${UNITS[a]}`).join(", ");
    get("told").textContent = `Leaf ${leaf.node}: ${box}. Multiplier ${short(leaf.multiplier)}, increment ${leaf.increment}, wait ${short(leaf.wait)} ms${share}.`;
  }

  function choose(leaf) {
    chosen = leaf.node;
    for (const row of document.querySelectorAll("tr.leaf")) row.classList.toggle("chosen", Number(row.dataset.node) === chosen);
    for (const box of document.querySelectorAll("rect.box")) box.classList.toggle("chosen", Number(box.dataset.node) === chosen);
    tell(leaf);
  }

  function draw() {
    const axis = Number(get("axis").value), kind = get("colour").value, trueScale = get("true-scale").checked;
    const ends = edges(leaves, axis);
    get("slice").max = ends.length - 2;
    const i = Math.min(Number(get("slice").value), ends.length - 2);
    get("where").textContent = `${AXES[axis]} ${short(ends[i])} to ${short(ends[i + 1])}${UNITS[axis]}, slice ${i + 1} of ${ends.length - 1}`;
    const [across, up] = [0, 1, 2].filter(a => a !== axis);
    const [xs, ys] = [edges(leaves, across), edges(leaves, up)];
    const values = leaves.map(leaf => valueOf(leaf, kind));
    const [least, most] = [Math.min(...values), Math.max(...values)];
    get("least").textContent = shown(kind, least);
    get("most").textContent = shown(kind, most);
    const svg = get("boxes");
    svg.replaceChildren();
    const [left, top, wide, high] = [60, 10, 565, 425];
    for (const leaf of sliceOf(leaves, axis, i)) {
      const x0 = placeOf(xs, leaf.low[across], trueScale), x1 = placeOf(xs, leaf.high[across], trueScale);
      const y0 = placeOf(ys, leaf.low[up], trueScale), y1 = placeOf(ys, leaf.high[up], trueScale);
      const part = most > least ? (valueOf(leaf, kind) - least) / (most - least) : 0.5;
      const box = make("rect", {
        class: leaf.node === chosen ? "box chosen" : "box", x: left + wide * x0, y: top + high * (1 - y1), width: wide * (x1 - x0), height: high * (y1 - y0),
        fill: colourOf(part), "data-node": leaf.node,
      });
      box.append(make("title", {}, `leaf ${leaf.node}: ${shown(kind, valueOf(leaf, kind))}`));
      box.addEventListener("pointerenter", () => tell(leaf));
      box.addEventListener("click", () => choose(leaf));
      svg.append(box);
      if (wide * (x1 - x0) > 22 && high * (y1 - y0) > 14) {
        svg.append(make("text", { class: "number", x: left + wide * (x0 + x1) / 2, y: top + high * (1 - (y0 + y1) / 2) }, leaf.node));
      }
    }
    marks(svg, xs, trueScale, (at, text) => [left + wide * at, top + high + 14, "middle", text]);
    marks(svg, ys, trueScale, (at, text) => [left - 4, top + high * (1 - at) + 4, "end", text]);
    svg.append(make("text", { x: left + wide, y: top + high + 32, "text-anchor": "end" }, `${AXES[across]}${UNITS[across] && ", s"}`));
    svg.append(make("text", { x: 4, y: top + high + 32 }, `upward: ${AXES[up]}${UNITS[up] && ", s"}`));
  }

  // The cuts of an axis, as many as have room.
  function marks(svg, ends, trueScale, place) {
    let last = -1;
    for (const x of ends) {
      const at = placeOf(ends, x, trueScale);
      if (at - last < 0.07) continue;
      last = at;
      const [px, py, anchor, text] = place(at, short(x));
      svg.append(make("text", { x: px, y: py, "text-anchor": anchor }, text));
    }
  }

  function step(by) {
    const slice = get("slice");
    slice.value = Number(slice.value) + by;
    draw();
  }

  function course() {
    const svg = get("course");
    if (!svg) return;
    const rows = data.course;
    const scored = rows.map((row, i) => ({ ...row, i })).filter(row => typeof row.best === "number");
    if (scored.length === 0) return;
    const [least, most] = [Math.min(...scored.map(r => r.best)), Math.max(...scored.map(r => r.best))];
    const x = i => 60 + 565 * (rows.length > 1 ? i / (rows.length - 1) : 0.5);
    const y = best => 200 - 180 * (most > least ? (best - least) / (most - least) : 0.5);
    rows.forEach((row, i) => {
      if (i > 0 && row.splits > rows[i - 1].splits) svg.append(make("line", { class: "split", x1: x(i), x2: x(i), y1: 10, y2: 210 }));
    });
    svg.append(make("polyline", { class: "best", points: scored.map(r => `${x(r.i)},${y(r.best)}`).join(" ") }));
    svg.append(make("text", { x: 4, y: y(most) + 4 }, short(most)), make("text", { x: 4, y: y(least) + 4 }, short(least)));
    svg.append(make("text", { x: 625, y: 228, "text-anchor": "end" }, `${rows.length} rows`));
  }

  for (const id of ["axis", "colour", "true-scale", "slice"]) get(id).addEventListener("input", draw);
  get("axis").addEventListener("input", () => { get("slice").value = 0; draw(); });
  get("before").addEventListener("click", () => step(-1));
  get("after").addEventListener("click", () => step(1));
  for (const row of document.querySelectorAll("tr.leaf")) {
    row.addEventListener("click", () => choose(leaves.find(leaf => leaf.node === Number(row.dataset.node))));
  }
  draw();
  course();
}

if (typeof document !== "undefined") page();
