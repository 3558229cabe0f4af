"use strict";
/* The frame of the page: elements, the module, the parts, links and the clipboard. No value becomes HTML. */
const MOST_LINK = 2000, PARTS = ["resources", "routes", "proof"];
const by = (id) => document.getElementById(id);
const show = (id, ...inside) => by(id).replaceChildren(...inside);
/** Makes an element with properties, perhaps with a label, and with texts or other elements inside. */
function element(name, { label, ...properties } = {}, ...inside) {
  const made = Object.assign(document.createElement(name), properties);
  if (label) made.setAttribute("aria-label", label);
  made.append(...inside);
  return made;
}
const button = (text, onclick, label = text) => element("button", { type: "button", onclick, label }, text);
/** Makes a table of rows. The first cell of each row is its head. */
const tableOf = (label, rows, head = []) => element("table", { label },
  head.length ? element("tr", {}, ...head.map((it) => element("th", { scope: "col" }, it))) : "",
  ...rows.map(([first, ...rest]) => element("tr", {}, element("th", { scope: "row" }, first),
    ...rest.map((it) => element("td", {}, it)))));
const codeOf = (text, most = 2000) => element("code", {}, text.length <= most ? text :
  `${text.slice(0, most)} … and ${text.length - most} characters more`);
const count = (number, noun) => `${number} ${noun}${number === 1 ? "" : "s"}`;
/** Disables a button, or enables it. If a button with the focus is disabled, the button `other` gets the focus. */
function disable(id, isDisabled, other) {
  if (isDisabled && document.activeElement === by(id)) {
    by(other).disabled = false;
    by(other).focus();
  }
  by(id).disabled = isDisabled;
}
function say(text) {
  show("said", text);
  clearTimeout(say.later);
  say.later = setTimeout(() => show("said"), 9000);
}
/** Copies a text. Where the browser gives no access to the clipboard, it shows the text, to be copied by hand. */
const copy = async (text, note = "") =>
  say(note + (await navigator.clipboard?.writeText(text).then(() => "Copied.", () => null) ?? `Copy this: ${text}`));
/** Copies a link whose fragment has pairs of a name and a text. */
function copyLink(pairs) {
  const note = location.protocol === "file:" ? "The link needs this page at the same path. " : "";
  const fragment = `${new URLSearchParams(pairs)}`;
  if (fragment.length <= MOST_LINK) copy(`${location.href.split("#")[0]}#${fragment}`, note);
  else say(`A link has at most ${MOST_LINK} characters, and this input needs ${fragment.length}.`);
}
/** Calls `take` with the files that are dropped on an element. */
const onDrop = (place, take) => ["dragover", "dragleave", "drop"].forEach((name) =>
  place.addEventListener(name, (event) => {
    event.preventDefault();
    event.stopPropagation();
    place.classList.toggle("over", name === "dragover");
    if (name === "drop") take([...event.dataTransfer.files]);
  }));
function showPart(name) {
  for (const part of PARTS) {
    by(part).hidden = part !== name;
    by(`show-${part}`).setAttribute("aria-current", part === name ? "page" : "false");
  }
  document.title = `${by(`show-${name}`).textContent} - Pigyelund`;
  dispatchEvent(new Event("resize")); // pictures that were drawn while they were hidden have no width
}
function showFacts({ version, commit, proved, verdict, sources, sha256 }) {
  show("built", `${version} · ${proved ? "proved" : "built without proof"} · nothing leaves this page`);
  show("proved", proved ? "It is compiled from the proved library of Pigyelund. The compiler and linker are trusted." :
    "This module was built without proof, with checks at run time. So its answers are tested, and not proved.");
  show("module", tableOf("The module", [["version", version], ["built from commit", commit],
    ["verdict; its sum is of the prover's logic", codeOf(verdict)], ["SHA-256 of the sources", codeOf(sources)],
    ["SHA-256 of the module", codeOf(sha256)]]));
}
/** Loads the module, and has it answer one line: a browser in which it computes something else is not used. */
async function loadModule() {
  if (!globalThis.Pigyelund) throw new Error("A file of the page is missing, or the browser is too old to read it.");
  showFacts(await Pigyelund.load());
  const said = Pigyelund.answer("path v4 10.0.0.0/8 | refuse 12.0.0.0/24");
  if (said !== "refused at step 0: overclaimed IPv4 resources: 12.0.0.0/24") throw new Error("Its answers are wrong.");
}
async function start() {
  for (const part of PARTS) by(`show-${part}`).addEventListener("click", () => showPart(part));
  addEventListener("hashchange", () => location.reload());
  addEventListener("dragover", (event) => event.preventDefault());
  addEventListener("drop", (event) => (event.preventDefault(), say("Nothing was read. Drop files on a box.")));
  await loadModule();
  const link = location.hash.slice(1), isLong = link.length > MOST_LINK;
  const pairs = isLong ? [] : [...new URLSearchParams(link)];
  if (isLong) say(`The link is longer than ${MOST_LINK} characters, and is not used.`);
  const isOfRoutes = pairs.some(([name]) => name === "routes" || name === "vrps");
  startResources(isOfRoutes ? [] : pairs);
  startRoutes(isOfRoutes ? pairs : []);
  showPart(isOfRoutes ? "routes" : "resources");
  by("engine").hidden = true;
}
start().catch((fault) =>
  show("engine", element("strong", {}, "No answers here. "), `${fault.message} ${by("works").textContent}`));
