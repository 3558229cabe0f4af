"use strict";
/* The cards of the part "Resources": the text and the mode of the anchor and of each certificate, and dropped files. */
const EXAMPLE = [["anchor", "AS64496-AS64511\n10.0.0.0/8, 192.0.2.0/24\n2001:db8::/32"],
  ["refuse", "AS64496\n10.0.0.0/9\n2001:db8:1::/48"], ["refuse", "10.2.0.0/16, 10.200.0.0/14"]];
const cards = () => [...by("claims").children];
const textOf = (card) => card.querySelector("textarea");
const modesOf = (card) => [...card.querySelectorAll("input[type=radio]")];
const modeOf = (card) => modesOf(card).find((it) => it.checked)?.value ?? "anchor";
const setMode = (card, mode) => modesOf(card).forEach((it) => (it.checked = it.value === mode));
const note = (card, text) => (card.querySelector(".note").textContent = text);
/** Numbers the cards, and names their controls: a path may have any number of certificates. */
function nameCards() {
  cards().forEach((card, index) => {
    const name = index ? `Certificate ${index}` : "Issuer or trust anchor";
    card.querySelector("legend").textContent = name;
    card.querySelector(".fault").id = `fault-${index}`;
    textOf(card).setAttribute("aria-describedby", `fault-${index}`);
    for (const it of card.querySelectorAll("textarea, .actions *")) {
      it.setAttribute("aria-label", `${it.textContent || (it.type === "file" ? "File" : "Resources")}: ${name}`);
    }
    modesOf(card).forEach((it) => (it.name = `mode-${index}`));
    card.querySelector(".up")?.toggleAttribute("disabled", index < 2);
    textOf(card).disabled = modeOf(card) === "inherit";
  });
}
/** Adds a card at the end of the path. The first card is the anchor's, which has no mode and stays. */
function addCard(mode, text) {
  const card = by("claim").content.firstElementChild.cloneNode(true);
  textOf(card).value = text;
  if (!cards().length) card.querySelectorAll(".modes, .actions button").forEach((it) => it.remove());
  setMode(card, mode);
  card.addEventListener("input", ({ target }) => {
    card.fault = "";
    if (target === textOf(card)) note(card, "");
    pathChanged(target === textOf(card) ? 800 : 150);
  });
  card.querySelector("input[type=file]").addEventListener("change", (event) => fillCard(card, event.target.files[0]));
  onDrop(card, (files) => fillCard(card, files[0]));
  const act = (name, nextOf, call) => card.querySelector(name)?.addEventListener("click", () => {
    const next = nextOf();
    call();
    pathChanged();
    (next.querySelector(`${name}:enabled`) ?? next.querySelector(".remove") ?? textOf(next)).focus();
  });
  act(".up", () => card, () => card.previousElementSibling.before(card));
  act(".remove", () => card.nextElementSibling ?? card.previousElementSibling, () => card.remove());
  by("claims").append(card);
  return card;
}
/** Fills a card with the resource extensions of a certificate, as DER in hexadecimal. */
async function fillCard(card, file) {
  if (!file) return;
  try {
    if (file.size > 1 << 20) throw new Error("the file is above 1 MiB");
    const found = resourceExtensions(new Uint8Array(await file.arrayBuffer()));
    textOf(card).value = [found.as, found.ip].filter(Boolean).map(hexOf).join("\n");
    setMode(card, found.mode);
    card.fault = "";
    note(card, `From ${file.name}. JavaScript found its extensions; this step is tested, not proved.`);
  } catch (fault) {
    card.fault = `${file.name}: ${fault.message}. Choose a certificate in DER, or edit the lines.`;
  }
  pathChanged();
}
/** Adds a card for each file. If the anchor is empty and alone, the first file fills it. */
async function addFiles(files) {
  for (const file of files) {
    const [anchor, other] = cards();
    await fillCard(other || textOf(anchor).value.trim() ? addCard("refuse", "") : anchor, file);
  }
}
const pathPairs = () => [...(by("lenient").checked ? [["lenient", "1"]] : []),
  ...cards().map((card) => [modeOf(card), textOf(card).value])];
function setPath(pairs) {
  by("claims").replaceChildren();
  by("lenient").checked = pairs.some(([mode]) => mode === "lenient");
  addCard("anchor", pairs.find(([mode]) => mode === "anchor")?.[1] ?? "");
  for (const [mode, text] of pairs) if (["refuse", "trim", "inherit"].includes(mode)) addCard(mode, text);
  pathChanged();
}
/** Reads the cards, and shows the answer, or at each card what is wrong with it. */
function answerPath() {
  const claims = [];
  try {
    for (const card of cards()) {
      const place = card.querySelector(".fault"), mode = modeOf(card);
      let said = card.fault ?? "";
      try {
        const claim = mode === "inherit" || said ? INHERIT : claimOf(textOf(card).value);
        claims.push({ ...claim, mode: mode === "trim" ? "trim" : "refuse" });
      } catch (fault) {
        said = fault.message;
      }
      if (place.textContent !== said) place.textContent = said;
      textOf(card).setAttribute("aria-invalid", said !== "");
      if (said) throw new Error(`${card.querySelector("legend").textContent} has an error.`);
    }
    showPath(claims[0], claims.slice(1), by("lenient").checked);
  } catch (fault) {
    tell("bad", element("strong", {}, "No answer. "), fault.message);
    for (const it of ["pictures", "remains"]) show(it);
  }
}
/** Answers after a pause, which is longer after a key than after a button. */
function pathChanged(pause = 150) {
  nameCards();
  clearTimeout(pathChanged.later);
  pathChanged.later = setTimeout(answerPath, pause);
}
function startResources(pairs) {
  setPath(pairs.length ? pairs : EXAMPLE);
  if (!pairs.length) note(cards()[0], "This path is an example. Clear removes it.");
  by("add").addEventListener("click", () => (textOf(addCard("refuse", "")).focus(), pathChanged()));
  by("clear").addEventListener("click", () => setPath([]));
  by("lenient").addEventListener("change", () => pathChanged());
  by("certificates").addEventListener("change", (event) => addFiles([...event.target.files]));
  onDrop(by("drop-certificates"), addFiles);
  addEventListener("resize", () => pathChanged());
}
