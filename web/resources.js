"use strict";
/* The part "Resources": reads the claims of a path, has the module verify them, and shows the verdict and pictures. */
const KINDS = { as: "AS numbers", v4: "IPv4", v6: "IPv6" }, NAMES = { as: "asn", v4: "ipv4", v6: "ipv6" };
const UNCHECKED = "Signatures, dates, revocation and the order of certificates are not checked.";
/* What to do after the fault n of a text, PIGY_BAD_TEXT + n. */
const REMEDIES = { 1: "Save the text as UTF-8.", 7: "Write the lower address first.",
  2: "Write a number from 0 to 4294967295, with or without AS in front, and commas between elements.",
  3: "Write two AS numbers in ascending order, with a dash and no spaces between them.",
  4: "Write an address such as 192.0.2.1 or 2001:db8::1, and commas between elements.",
  5: "Write a length up to 32 for IPv4 or 128 for IPv6, and no netmask.",
  6: "Write AS numbers, IPv4 and IPv6 addresses on lines of their own." };
const plain = (fault) => fault.message.replace(/^text of a set: | \([a-z]+ [0-9]+\)$/g, "");
const octetsOf = (hex) => Uint8Array.from(hex.match(/../g) ?? [], (it) => parseInt(it, 16));
const setOf = (kind, text) => Pigyelund.Resources.fromText(text, NAMES[kind]);
const textOfSet = (set, kind) => set.text(NAMES[kind]);
const only = (set, kind) => setOf(kind, textOfSet(set, kind));
const encoding = (lenient) => (lenient ? "lenient" : "strict");
const verify = (set, { as, ip }, lenient, mode) => set.verify(as, ip, encoding(lenient), mode);
/** Returns the result of a call, or its error if the module refuses a text, a line or DER. */
function tried(call) {
  try {
    return { value: call() };
  } catch (fault) {
    if (["BAD_TEXT", "BAD_QUERY", "BAD_AS", "BAD_IP", "INHERITED"].includes(fault.code)) return { fault };
    throw fault;
  }
}
/** Returns the error of a line that the module refuses as a list of each kind. It names the wrong element. */
function faultOf(line, number) {
  const fault = (kind) => tried(() => setOf(kind, line)).fault;
  const kind = fault("v4")?.fault === 6 ? "v6" : fault("v6")?.fault === 6 ? "v4" : "as", elements = line.split(",");
  const at = Math.max(0, elements.findIndex((it) => tried(() => setOf(kind, it)).fault));
  const where = `line ${number}, element ${at + 1}: ${elements[at].trim().slice(0, 80)}`;
  return new Error(`${where}: ${plain(fault(kind))}. ${REMEDIES[fault(kind).fault] ?? ""}`);
}
/** Reads a line as DER in hexadecimal: AS identifiers, or else IP address blocks. Returns null for any other line. */
function derOf(line, number) {
  const hex = line.replace(/[\s:]/g, "").toLowerCase(), der = octetsOf(hex);
  if (!/^30([0-9a-f]{2}){2,}$/.test(hex)) return null;
  const [as, v4, v6] = Object.keys(KINDS).map((kind) => tried(() => Pigyelund.answer(`read ${kind} ${hex}`)).value);
  if (as !== undefined) return { as: der, kinds: { as } };
  if (v4 !== undefined && v6 !== undefined) return { ip: der, kinds: { v4, v6 } };
  const why = [[der, null], [null, der]].map((it) => tried(() => Pigyelund.Resources.read(...it, "lenient")).fault);
  throw new Error(`line ${number}: this is DER neither of AS identifiers nor of IP address blocks: ${
    why.map((it) => it && plain(it)).join("; ")}`);
}
/** Returns the extensions that the lines of a claim make, and for each kind its text: a list, inherit or missing. */
function claimOf(text) {
  const lists = {}, made = {}, kinds = {};
  text.split("\n").forEach((line, index) => {
    if (!line.trim()) return;
    const kind = Object.keys(KINDS).find((it) => tried(() => setOf(it, line)).value);
    const read = kind ? { kinds: { [kind]: line } } : derOf(line, index + 1);
    if (!read) throw faultOf(line, index + 1);
    const before = kind ? made[kind === "as" ? "as" : "ip"] : read.as ? kinds.as : kinds.v4 ?? kinds.v6;
    if (before !== undefined) {
      throw new Error(`line ${index + 1}: DER has all of an extension, and another line has resources of it too`);
    }
    if (kind) lists[kind] = kinds[kind] = lists[kind] === undefined ? line : `${lists[kind]},${line}`;
    else Object.assign(made, read), Object.assign(kinds, read.kinds);
  });
  const sets = Object.entries(lists).map(([kind, it]) => setOf(kind, it));
  const listed = sets.length ? sets.reduce((sum, it) => sum.union(it)).der() : { as: null, ip: null };
  return { as: made.as ?? listed.as, ip: made.ip ?? listed.ip,
    kinds: { as: "missing", v4: "missing", v6: "missing", ...kinds } };
}
/* The claim of a certificate that inherits AS numbers, IPv4 and IPv6 addresses (RFC 3779, 2.2.3.5 and 3.2.3.3). */
const INHERIT = { as: octetsOf("3004a0020500"), ip: octetsOf("301030060402000105003006040200020500"),
  kinds: { as: "inherit", v4: "inherit", v6: "inherit" } };
/** Has the module verify a path. Returns the sets after each verified certificate, and what was refused, or null. */
function verifiedPath(anchor, certificates, lenient) {
  const sets = [Pigyelund.Resources.read(anchor.as, anchor.ip, encoding(lenient))];
  let refused = null;
  try {
    sets[0].verifyPath(certificates.map(({ as, ip, mode }) => ({ as, ip, mode })), encoding(lenient));
  } catch (fault) {
    if (fault.verified === undefined) throw fault;
    refused = { at: fault.verified, fault };
  }
  for (const it of certificates.slice(0, refused?.at)) sets.push(verify(sets.at(-1), it, lenient, it.mode));
  return { sets, refused };
}
/** Returns a part of a row: a state, a set, and the set's ranges of a kind as numbers for the picture. */
function partOf(state, set, kind) {
  const number = (octets) => BigInt(`0x${hexOf(octets)}`);
  const ranges = kind === "as" ? set.asRanges().map(({ min, max }) => [BigInt(min), BigInt(max)]) :
    set.ipRanges(NAMES[kind]).map(({ minOctets, maxOctets }) => [number(minOctets), number(maxOctets)]);
  return { state, ranges, text: textOfSet(set, kind) };
}
/** Returns the rows of a picture: what the anchor holds of a kind, and what each certificate claims of it. */
function rowsOf(kind, { sets, refused }, certificates) {
  const rows = certificates.map(({ kinds: { [kind]: text }, mode }, index) => {
    const issuer = sets[index] && only(sets[index], kind), isChecked = issuer && !(refused && index > refused.at);
    const claim = text === "missing" || text === "inherit" ? null : setOf(kind, text);
    const parts = !claim ? (text === "inherit" && issuer ? [partOf("inherited", issuer, kind)] : []) :
      !isChecked ? [partOf("unchecked", claim, kind)] : [partOf("verified", claim.intersection(issuer), kind),
        partOf(mode === "trim" ? "removed" : "overclaimed", claim.difference(issuer), kind)];
    return { name: `cert. ${index + 1}`, parts: parts.filter((it) => it.ranges.length) };
  });
  const held = partOf("held", only(sets[0], kind), kind);
  return [{ name: "issuer", parts: held.ranges.length ? [held] : [] }, ...rows];
}
const boundName = (kind, number) => (number >= (kind === "v6" ? 1n << 128n : 1n << 32n) ? "end" : kind === "as" ?
  `AS${number}` : Pigyelund.addressText(octetsOf(number.toString(16).padStart(kind === "v4" ? 8 : 32, "0"))));
/** Returns the card with the picture of a kind, and the same as a table. */
function pictureCard(kind, rows, width) {
  const states = [...new Set(rows.flatMap((row) => row.parts.map((it) => it.state)))];
  const isOver = states.some((it) => it === "overclaimed" || it === "removed");
  const title = `${KINDS[kind]} of ${count(rows.length - 1, "certificate")}: ${isOver ? "one" : "none"} overclaims`;
  const nameOf = (it) => boundName(kind, it);
  const { svg, out, steps } = pictureOf(rows, { title, width, nameOf, id: `fill-${kind}` });
  const lines = rows.flatMap(({ name, parts }) => (!parts.length ? [[name, "claims nothing", ""]] :
    parts.map((it) => [name, STATES[it.state], codeOf(it.text)])));
  const left = `${out} of ${steps} steps of the axis are left out. Those next to overclaimed resources stay.`;
  return element("div", { className: "card" }, element("h2", {}, KINDS[kind]), svg,
    element("p", { className: "legend" }, ...states.map((it) => keyOf(it, STATES[it]))),
    out ? element("p", {}, left) : "", element("details", {}, element("summary", {}, `${KINDS[kind]} as a table`),
      element("div", { className: "wide" }, tableOf(KINDS[kind], lines, ["row", "state", "resources"]))));
}
/** Returns the card with a set: its texts, its canonical DER and its shortest prefixes, each with a button to copy. */
function setCard(title, set) {
  const der = set.der(), prefixes = (kind) => set.prefixes(NAMES[kind]).join(", ");
  const values = [...Object.keys(KINDS).map((kind) => [KINDS[kind], textOfSet(set, kind)]),
    ["IPv4 prefixes", prefixes("v4")], ["IPv6 prefixes", prefixes("v6")],
    ["DER, AS identifiers", hexOf(der.as ?? [])], ["DER, IP addresses", hexOf(der.ip ?? [])]];
  const rows = values.map(([name, text]) => [name, text ? codeOf(text) : element("small", {}, "none"),
    text ? button("Copy", () => copy(text), `Copy ${name}`) : ""]);
  return element("div", { className: "card" }, element("h2", {}, title),
    element("div", { className: "wide" }, tableOf(title, rows)));
}
/** Says that a certificate was refused: which one, for what, and what the other mode would leave. */
function refusal(path, certificates, lenient) {
  const { sets, refused: { at, fault } } = path, strong = element("strong", {}, `Refused at certificate ${at + 1}.`);
  if (!fault.excess) return [strong, ` ${plain(fault)}.`];
  const over = Object.keys(KINDS).flatMap((kind) => rowsOf(kind, path, certificates)[at + 1].parts)
    .filter((it) => it.state === "overclaimed").map((it) => it.text).join(", ");
  const rest = verify(sets[at], certificates[at], lenient, "trim");
  const left = Object.keys(KINDS).map((kind) => textOfSet(rest, kind)).filter(Boolean).join(", ");
  return [strong, " It claims what its issuer does not hold: ", codeOf(over), ". ", element("small", {},
    "RFC 6487, 7.2. With trim (RFC 8360) ", left ? codeOf(left, 300) : "nothing", " would remain.")];
}
/** Shows a verdict. The same verdict stays as it is, so that a screen reader says it once. */
function tell(state, ...inside) {
  const made = element("div", {}, ...inside);
  if (by("verdict").textContent !== made.textContent) show("verdict", ...made.childNodes);
  by("verdict").className = `card verdict ${state}`;
}
/** Shows the verdict on a path, its pictures, and what remains. */
function showPath(anchor, certificates, lenient) {
  const path = verifiedPath(anchor, certificates, lenient), { sets, refused } = path, last = sets.length - 1;
  const pictures = Object.keys(KINDS).map((kind) => [kind, rowsOf(kind, path, certificates)]);
  const trimmed = certificates.map((_, index) => index + 1).filter((row) =>
    pictures.some(([, rows]) => rows[row].parts.some((it) => it.state === "removed"))).join(", ");
  const good = !last ? "There is no certificate yet. Below is what the issuer holds." :
    trimmed ? `Trimmed: certificate ${trimmed} overclaims.` : "Each certificate claims only what its issuer holds.";
  const said = refused ? refusal(path, certificates, lenient) : [element("strong", {}, good)];
  tell(refused ? "bad" : trimmed ? "trimmed" : "good", ...said, element("br"), element("small", {}, UNCHECKED));
  show("pictures", ...pictures.filter(([, rows]) => rows.some((row) => row.parts.length)).map(
    ([kind, rows]) => pictureCard(kind, rows, by("pictures").clientWidth - 30)));
  show("remains", setCard(last ? `What remains after certificate ${last}` : "What the issuer holds", sets.at(-1)),
    element("p", {}, button("Copy a link to this input", () => copyLink(pathPairs()))));
}
