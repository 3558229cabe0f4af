"use strict";
/* The part "Routes": gives files to the worker, and shows the states of their lines. */
const MOST_FILE = 512 * 2 ** 20, ROWS = 500, SAVED = 20000;
const STATE_NAMES = ["valid", "not-found", "invalid-as", "invalid-length", "skipped", "error"];
const REASONS = { "not-found": "no VRP covers the route", skipped: "withdraws or has no route",
  "invalid-as": "no covering VRP has its AS; or its path is empty, as that of your own routes",
  "invalid-length": "longer than the maximum length of the VRPs with its AS", error: "not a route; see its line" };
/* What to do after the fault n of a line of CSV, of an item of JSON, of a whole file of VRPs, or of a route. */
const FIELDS = { 0: "An item has each of asn, prefix and maxLength once; roas is an array.", 1: "Save it as UTF-8.",
  2: "A line end was lost, or a field has a comma.", 3: "The line was cut, or is a comment.",
  4: "Write a number from 0 to 4294967295, with or without AS in front.", 6: "Write a decimal number.",
  5: "Write a prefix such as 192.0.2.0/24, without bits after its length.", 18: "Write the expiry once.",
  7: "The maximum length is at least the prefix length, and at most 32 for IPv4 or 128 for IPv6.",
  19: "Write the expiry as a number.", 20: "Write the expiry in seconds since 1970." };
const UNKNOWN = "RFC 8416, 3, does not define this member. Remove it.", IS_CUT = "The file was cut, or is no JSON. ";
const ROUTE = "Write a line such as 192.0.2.0/24 AS64496. VRPs and SLURM have boxes of their own.";
const FILE_REMEDIES = { BAD_LINE: FIELDS, BAD_ITEM: FIELDS, BAD_ROUTE: { 1: FIELDS[1], 2: "The line was cut.", 3: ROUTE,
  4: ROUTE, 5: `Write no bits after the prefix length. ${ROUTE}`, 6: `After the prefix and a space: ${FIELDS[4]}` },
  BAD_FILE: { 0: FIELDS[0], 1: 'Put the array into an object: {"roas": [..]}.', 2: `${IS_CUT}Run the validator again.`,
    3: "Put a SLURM file into its own box.", 6: "Run the validator again.",
    7: "Write a first line such as ASN,IP Prefix,Max Length, or run rpki-client -c." },
  BAD_SLURM: { 0: "The file has each of these once: slurmVersion, a number; validationOutputFilters and " +
    "locallyAddedAssertions, objects; prefixFilters, bgpsecFilters, prefixAssertions and bgpsecAssertions, arrays.",
  1: `${IS_CUT}CSV of VRPs has its own box.`, 2: UNKNOWN, 3: "Write the file in version 1.", 4: UNKNOWN, 5: UNKNOWN },
  BAD_SLURM_ITEM: { 0: "asn and maxPrefixLength are numbers, the other members are texts, and each is there once. A " +
    "prefix assertion needs prefix and asn, a BGPsec assertion asn, SKI and routerPublicKey.",
  1: "Write the item as an object.", 2: UNKNOWN, 3: FIELDS[5], 4: "Write a number from 0 to 4294967295.", 5: FIELDS[6],
  6: FIELDS[7], 7: "A prefix filter needs prefix or asn, and a BGPsec filter asn or SKI." },
};
const ROUTES_EXAMPLE = { vrps: "ASN,IP Prefix,Max Length\nAS64496,192.0.2.0/23,24",
  routes: "192.0.2.0/24 AS64496\n192.0.2.0/25 AS64496\n192.0.3.0/24 AS64511\n198.51.100.0/24 AS64496" };
const BOXES = { vrps: "VRPs", slurm: "SLURM", lines: "routes" };
const chosen = { vrps: [], slurm: [], lines: [] }, decoder = new TextDecoder(), asked = new Map();
let worker = null, results = null, began = 0, questions = 0, runs = 0;
const inputChanged = () => began && !by("old").firstChild && show("old", "The input has changed. Validate again.");
/** Keeps the chosen files of an input, and names them. Files above MOST_FILE are refused by name. */
function choose(what, files) {
  chosen[what] = files.filter((it) => it.size <= MOST_FILE);
  if (files[0] !== by(what).files[0]) by(what).value = "";
  const names = files.map((it) => (it.size <= MOST_FILE ? `${it.name} (${Math.ceil(it.size / 1000)} kB)` :
    `${it.name} is refused: it has ${Math.ceil(it.size / 2 ** 20)} MiB, and at most 512 are read`)).join("; ");
  const remove = button("Remove", () => (choose(what, []), by(what).focus()), `Remove the files: ${BOXES[what]}`);
  by(`drop-${what}`).querySelector(".files").replaceChildren(...(files.length ? [names, " ", remove] : []));
  inputChanged();
}
/** Reads the chosen files and the pasted lines. A file that cannot be read, such as a folder, makes an error. */
function octetsOfFiles(what) {
  const { value } = by(`pasted-${what}`), pasted = value.trim() ? [new File([value], `pasted ${BOXES[what]}`)] : [];
  return Promise.all([...chosen[what], ...pasted].map((file) => file.arrayBuffer().then(
    (it) => ({ name: file.name, octets: new Uint8Array(it) }),
    () => Promise.reject(new Error(`${file.name}: the file cannot be read, or is a folder`)))));
}
function progress(done, ...texts) {
  Object.assign(by("done"), { hidden: done === null, value: done ?? 0 });
  show("state", ...texts);
}
/** Enables the buttons. A screen reader says the state before and after a run, and not each step. */
function setRunning(isRunning) {
  by("state").setAttribute("aria-live", isRunning ? "off" : "polite");
  disable("validate", isRunning, "stop");
  disable("stop", !isRunning, "validate");
}
function stop() {
  worker?.terminate();
  runs++;
  setRunning(false);
}
async function validate() {
  stop();
  setRunning(true);
  const run = runs;
  for (const it of ["counts", "old", "said"]) show(it);
  progress(0, "Reading the files");
  by("found").hidden = true;
  began = performance.now();
  try {
    const [vrps, slurm, lines] = await Promise.all(Object.keys(chosen).map(octetsOfFiles));
    if (run !== runs) return;
    if (!vrps.length) throw new Error("There are no VRPs. Choose a file or write AS64496,192.0.2.0/23,24.");
    if (!lines.length) throw new Error("There are no routes. Choose a file or write 192.0.2.0/24 AS64496.");
    if (slurm.length > 1) throw new Error("There are several SLURM files or texts. Keep one (RFC 8416, 4.2).");
    const source = new Blob([`${Pigyelund.source}(${routesWorker})();`], { type: "text/javascript" });
    worker = new Worker(URL.createObjectURL(source));
    worker.onmessage = ({ data }) => take(data);
    worker.onerror = (event) => take({ failed: `the worker ended: ${event.message}` });
    const module = Uint8Array.from(atob(PigyelundModule.base64), (it) => it.charCodeAt(0));
    const now = by("unexpired").checked ? Math.floor(Date.now() / 1000) : null;
    worker.postMessage({ module, vrps, slurm, lines, now },
      [module.buffer, ...[...vrps, ...slurm, ...lines].map((it) => it.octets.buffer)]);
  } catch (fault) {
    take({ failed: fault.message });
  }
}
function take(data) {
  if (data.step) progress(by("done").value, `${data.step} …`);
  if (data.done) progress(data.done / data.of, `${data.done} of ${count(data.of, "route")}`);
  if (data.files) showResults(data);
  if (data.covering) asked.get(data.page)?.(data.covering);
  if (!data.failed) return;
  stop();
  const remedies = FILE_REMEDIES[data.code], said = remedies ? `. ${remedies[data.number % 64] ?? remedies[0]}` : "";
  progress(null, element("strong", {}, "No answer. "), data.failed, said);
}
function showResults({ files, vrps, notes }) {
  const counts = STATE_NAMES.map(() => 0);
  let all = 0;
  for (const file of files) {
    file.first = all;
    all += file.states.length;
    for (const state of file.states) counts[state]++;
  }
  results = { files, counts, all, rows: null, page: 0 };
  setRunning(false);
  const seconds = ((performance.now() - began) / 1000).toFixed(2), more = notes.length ? ` (${notes.join("; ")})` : "";
  progress(null, `${count(all, "route")} by ${count(vrps, "VRP")}${more}, in ${seconds} seconds.`);
  const there = STATE_NAMES.map((name, it) => ({ name, of: counts[it] })).filter((it) => it.of);
  const bar = element("div", { className: "counts" }, ...there.map(({ name }) => element("span", { className: name })));
  there.forEach((it, index) => (bar.children[index].style.flexGrow = it.of));
  show("counts", bar, tableOf("Counts", there.map(({ name, of }) => [keyOf(name), String(of),
    `${((100 * of) / all).toFixed(1)}\u00a0%`, REASONS[name] ?? ""]), ["state", "routes", "share", "meaning"]));
  show("only", new Option("all routes", ""), new Option("all invalid", "invalid"),
    ...there.map(({ name }) => new Option(name, name)));
  by("found").hidden = false;
  filter();
}
const filter = () => showPage(0, select(by("only").value, by("with").value));
const keyOf = (name, text = name) => element("span", { className: `key ${name}` }, text);
/** Returns the numbers of the lines of all files that have a state whose name begins with `only`, and the text. */
function select(only, text) {
  const isWanted = STATE_NAMES.map((it) => it.startsWith(only));
  const rows = new Uint32Array(results.counts.reduce((sum, it, state) => sum + (isWanted[state] ? it : 0), 0));
  const latin = new TextDecoder("latin1"), needle = latin.decode(new TextEncoder().encode(text));
  let count = 0;
  for (const { first, octets, starts, states } of results.files) {
    const whole = needle && latin.decode(octets);
    for (let line = 0, at = -1; line < states.length; line++) {
      if (!isWanted[states[line]]) continue;
      if (needle && at < starts[line]) at = whole.indexOf(needle, starts[line]);
      if (needle && at < 0) break;
      if (!needle || at < starts[line + 1]) rows[count++] = first + line;
    }
  }
  return rows.subarray(0, count);
}
/** Returns what is known of a line: its file, its number there, its text, its state and the reason. */
function lineOf(row) {
  const file = results.files.findLast((it) => it.first <= row), line = row - file.first;
  const octets = file.octets.subarray(file.starts[line], file.starts[line + 1]), name = STATE_NAMES[file.states[line]];
  const text = decoder.decode(octets).trimEnd(), [fault, number] = file.faults.get(line) ?? [];
  const reason = fault ? `${fault}. ${FILE_REMEDIES.BAD_ROUTE[number] ?? ""}` : REASONS[name] ?? "";
  return { file, number: line + 1, text, name, reason };
}
const coverOf = (lines) => new Promise((done) => {
  const isCovered = ({ name }) => name === "valid" || name.startsWith("invalid");
  const cover = new TextEncoder().encode(lines.filter(isCovered).map(({ text }) => text).join("\n"));
  asked.set(++questions, (texts) => done(lines.map((it) => (isCovered(it) ? texts.shift() : ""))));
  worker?.postMessage({ cover, page: questions });
});
/** Shows a page of at most ROWS rows, and asks the worker for the VRPs that cover their routes. */
function showPage(page, rows = results.rows) {
  const last = Math.max(0, Math.ceil(rows.length / ROWS) - 1);
  Object.assign(results, { page, rows });
  disable("before", page === 0, "after");
  disable("after", page === last, "before");
  const first = page * ROWS, lines = Array.from(rows.subarray(first, first + ROWS), lineOf);
  show("page", `${count(rows.length, "row")}${last ? `: ${first + 1} to ${first + lines.length}` : ""}`);
  const cells = lines.map(({ number, text, name, reason }) =>
    [String(number), element("code", {}, text.slice(0, 300)), keyOf(name), reason, ""]);
  show("rows", tableOf("Routes", cells, ["line", "route", "state", "reason", "VRPs that cover it"]));
  const places = by("rows").querySelectorAll("td:last-child");
  coverOf(lines).then((texts) => texts.forEach((text, index) => (places[index].textContent = text)));
}
/** Saves the chosen lines with their states and the VRPs that cover them as CSV. The page answers meanwhile. */
async function save() {
  const field = (text) => `"${text.replaceAll('"', '""')}"`, pieces = ["file,line,route,state,reason,VRPs\r\n"];
  const own = results, { rows } = results;
  for (let from = 0; from < rows.length; from += SAVED) {
    const lines = Array.from(rows.subarray(from, from + SAVED), lineOf), texts = await coverOf(lines);
    if (results !== own) return;
    pieces.push(...lines.map(({ file, number, text, name, reason }, index) =>
      `${field(file.name)},${number},${field(text)},${name},${field(reason)},${field(texts[index])}\r\n`));
    say(`The CSV has ${Math.min(from + SAVED, rows.length)} of ${count(rows.length, "route")}.`);
  }
  const href = URL.createObjectURL(new Blob(pieces, { type: "text/csv" }));
  element("a", { href, download: "routes.csv" }).click();
  setTimeout(() => URL.revokeObjectURL(href), 60000);
}
function startRoutes(pairs) {
  const fields = Object.keys(BOXES).map((what) => [BOXES[what].toLowerCase(), by(`pasted-${what}`)]);
  const typed = () => fields.map(([name, it]) => [name, it.value]), hasFiles = () => Object.values(chosen).flat()[0];
  const fill = (texts) => {
    for (const [name, it] of fields) it.value = texts[name] ?? "";
    for (const what of Object.keys(chosen)) choose(what, []);
    by("unexpired").checked = "unexpired" in texts;
  };
  const on = (id, event, call) => by(id).addEventListener(event, (it) => (it.preventDefault(), call(it)));
  for (const what of Object.keys(chosen)) {
    on(what, "change", ({ target }) => choose(what, [...target.files]));
    onDrop(by(`drop-${what}`), (files) => choose(what, files));
  }
  on("inputs", "input", inputChanged);
  on("inputs", "submit", validate);
  on("stop", "click", () => (stop(), progress(null, `Stopped: ${by("state").textContent}`)));
  addEventListener("keydown", ({ key }) => key === "Escape" && by("stop").click());
  on("example", "click", () => ((!hasFiles() && typed().every(([, it]) => !it)) || confirm("Replace your input?")) &&
    (fill(ROUTES_EXAMPLE), validate()));
  on("link", "click", () => (hasFiles() ? say("A link has no files. Remove the files first.") :
    copyLink([...typed(), ...(by("unexpired").checked ? [["unexpired", "1"]] : [])])));
  on("filters", "submit", filter);
  on("only", "change", filter);
  on("before", "click", () => showPage(results.page - 1));
  on("after", "click", () => showPage(results.page + 1));
  on("save", "click", save);
  if (!pairs.length) return;
  fill(Object.fromEntries(pairs));
  validate();
}
