"use strict";
/* Draws the rows of a path over an axis. The steps of the axis lie between the bounds that occur in the rows. */
/* What the states of a part say, and which of them have a pattern of lines. */
const STATES = { held: "holds", verified: "claims, and its issuer holds", inherited: "inherits",
  overclaimed: "overclaims", removed: "overclaims, and trim removes", unchecked: "claims, not checked" };
const PATTERNS = { overclaimed: "M0 0V7", removed: "M0 0V7M0 0H7", inherited: "M3 3h1" };
const MOST_STEPS = 60, LABEL = 92, HEIGHT = 34, LETTER = 6.3, LINE = 14, LINES = 3;
function drawn(name, attributes, ...inside) {
  const made = document.createElementNS("http://www.w3.org/2000/svg", name);
  for (const [key, value] of Object.entries(attributes)) made.setAttribute(key, value);
  made.append(...inside);
  return made;
}
/** Returns the steps of an axis, and at each step the state of each row that covers it. */
function stepsOf(rows) {
  const all = rows.flatMap((row, number) => row.parts.flatMap(({ state, ranges }) =>
    ranges.map(([first, last]) => ({ number, state, first, end: last + 1n }))));
  const bounds = [...new Set(all.flatMap(({ first, end }) => [first, end]))].sort((a, b) => (a < b ? -1 : 1));
  const at = new Map(bounds.map((bound, index) => [bound, index]));
  const steps = bounds.slice(1).map((end, index) => ({ start: bounds[index], end, states: {} }));
  all.forEach(({ number, state, first, end }) =>
    steps.slice(at.get(first), at.get(end)).forEach((it) => (it.states[number] = state)));
  return steps;
}
/** Returns the indexes of the steps to draw: at most MOST_STEPS, the nearest to what is overclaimed. */
function stepsToDraw(steps) {
  const all = steps.map((_, index) => index), isOver = (it) => it === "overclaimed" || it === "removed";
  const distance = steps.map(({ states }) => (Object.values(states).some(isOver) ? 0 : steps.length));
  for (const it of all.slice(1)) distance[it] = Math.min(distance[it], distance[it - 1] + 1);
  for (const it of all.slice(0, -1).reverse()) distance[it] = Math.min(distance[it], distance[it + 1] + 1);
  return all.sort((a, b) => distance[a] - distance[b] || a - b).slice(0, MOST_STEPS).sort((a, b) => a - b);
}
/** Gives each drawn step its place: `left` and `width`. Neighbours that are left out make one narrow step together. */
function placed(steps, width) {
  const chosen = [...stepsToDraw(steps), steps.length].flatMap((index, at, all) => {
    const out = index - (at && all[at - 1] + 1);
    return [...(out ? [{ out, states: {} }] : []), ...steps.slice(index, index + 1)];
  });
  const isEmpty = (step) => step.out || !Object.keys(step.states).length;
  const weights = chosen.map((it) => 3 + (isEmpty(it) ? 0 : Math.log2(Number(it.end - it.start))));
  const unit = width / weights.reduce((sum, it) => sum + it, 0);
  const leftOf = (index) => LABEL + unit * weights.slice(0, index).reduce((sum, it) => sum + it, 0);
  return chosen.map((step, index) => ({ ...step, left: leftOf(index), width: weights[index] * unit }));
}
/** Returns the bars of a row: neighbours of the same state are one bar. */
function barsOf(steps, number) {
  const bars = [];
  steps.forEach(({ states: { [number]: state }, left, width }, index) => {
    if (state && steps[index - 1]?.states[number] === state) bars.at(-1).width += width;
    else if (state) bars.push({ state, left, width });
  });
  return bars;
}
/** Writes the bounds below the axis, each in the first line that has room. The table has all bounds. */
function labelsOf(steps, top, right, nameOf) {
  const ends = new Array(LINES).fill(0), labels = [];
  const write = (text, x) => {
    const half = (text.length * LETTER) / 2, middle = Math.min(Math.max(x, half), right - half);
    const line = ends.findIndex((end) => end <= middle - half);
    if (line < 0) return;
    ends[line] = middle + half + 6;
    labels.push(drawn("text", { x: middle, y: top + 12 + line * LINE, "text-anchor": "middle" }, text));
  };
  steps.forEach((step, index) => {
    const next = steps[index + 1];
    write(step.out ? `… ${step.out} …` : nameOf(step.start), step.left + (step.out ? step.width / 2 : 0));
    if (!step.out && (!next || next.out)) write(nameOf(step.end), step.left + step.width);
  });
  return { labels, lines: ends.filter(Boolean).length };
}
/** Draws rows. A row has a name and parts; a part has a state and ranges, pairs of a first and a last number.
 * `nameOf` gives the text of a bound. Returns the picture, the number of steps, and how many of them are left out. */
function pictureOf(rows, { title, width, nameOf, id }) {
  const steps = stepsOf(rows), bottom = 8 + rows.length * HEIGHT, right = Math.max(width, 260);
  const at = placed(steps, right - LABEL - 14), { labels, lines } = labelsOf(at, bottom, right, nameOf);
  const height = bottom + 8 + lines * LINE, viewBox = `0 0 ${right} ${height}`;
  const svg = drawn("svg", { viewBox, width: right, height, role: "img", "aria-label": title });
  for (const [name, d] of Object.entries(PATTERNS)) {
    const pattern = { id: `${id}-${name}`, width: 7, height: 7, patternUnits: "userSpaceOnUse" };
    if (name !== "inherited") pattern.patternTransform = "rotate(45)";
    const ground = drawn("rect", { width: 7, height: 7, class: `ground ${name}` });
    svg.append(drawn("pattern", pattern, ground, drawn("path", { d, class: `mark ${name}` })));
  }
  const edges = at.flatMap((step) => [step.left, step.left + step.width]).map((x) => `M${x.toFixed(1)} 4V${bottom}`);
  svg.append(drawn("path", { class: "steps", d: edges.join("") }), ...labels);
  rows.forEach(({ name }, number) => {
    const y = 8 + number * HEIGHT;
    svg.append(drawn("text", { x: 0, y: y + 17 }, name));
    for (const { state, left, width: wide } of barsOf(at, number)) {
      const box = { x: left, y: y + 4, width: Math.max(wide, 2), height: 18, rx: 3, class: `bar ${state}` };
      if (state in PATTERNS) box.fill = `url(#${id}-${state})`;
      svg.append(drawn("rect", box, drawn("title", {}, `${name} ${STATES[state]} this`)));
    }
  });
  return { svg, steps: steps.length, out: at.reduce((sum, step) => sum + (step.out ?? 0), 0) };
}
