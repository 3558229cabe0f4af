// The body of a function: has the module answer the cases of a file of vectors/, and returns the cases that differ.
const [subject, cases] = arguments, { Pigyelund } = window, { Resources, Table } = Pigyelund;
const KINDS = { as: "asn", v4: "ipv4", v6: "ipv6" };
const read = (hex) => Uint8Array.from(hex.match(/../g) ?? [], (it) => parseInt(it, 16));
const hex = (octets) => Array.from(octets ?? [], (it) => it.toString(16).padStart(2, "0")).join("");
const INHERIT = { as: read("3004a0020500"), ip: read("301030060402000105003006040200020500") };
const vrpText = ({ prefix, maxLength, asn }) => `${prefix}-${maxLength} ${asn}`;

/** Returns the value of a call, or its error. */
function tried(call) {
  try {
    return call();
  } catch (fault) {
    if (!(fault instanceof Pigyelund.Error) || ["TRAPPED", "ARGUMENT", "MEMORY"].includes(fault.code)) throw fault;
    return fault;
  }
}

/** Returns what the module says of the DER of one extension: the result, and the texts or `inherit` of its kinds. */
function readDer(name, octets) {
  const given = name === "as" ? [octets, null] : [null, octets], kinds = name === "as" ? ["asn"] : ["ipv4", "ipv6"];
  const [found, strict] = ["lenient", "strict"].map((it) => tried(() => Resources.read(...given, it)));
  const isRead = (it) => it instanceof Resources || it.code === "INHERITED";
  const result = !isRead(found) ? "invalid" : isRead(strict) ? "canonical" : "valid";
  const texts = found instanceof Resources ? kinds.map((it) => found.text(it)) : [];
  const canonical = texts.length ? hex(found.der()[name]) : null;
  return { result, texts, canonical, isInherited: found.code === "INHERITED" };
}

/** Compares what the module says of DER with the texts that are expected. */
function sameDer(name, octets, expected, texts) {
  const found = readDer(name, read(octets));
  if (found.result !== expected.result || found.result === "invalid") return found.result === expected.result;
  if (found.isInherited) return texts.includes("inherit");
  return found.canonical === expected.canonical && found.texts.every((it, at) => it === (texts[at] ?? ""));
}

function sameText(text, kind, expected) {
  const found = tried(() => Resources.fromText(text, kind).text(kind));
  return found instanceof Pigyelund.Error ? expected.result === "invalid" : found === expected.text;
}

function samePath({ kind, anchor, certificates }, expected) {
  const own = kind === "as" ? "as" : "ip", other = kind === "as" ? "ip" : "as";
  const given = ["as", "ip"].map((it) => (it === own && anchor.octets ? read(anchor.octets) : null));
  const issuer = Resources.read(...given);
  const path = certificates.map(({ octets, policy: mode }) =>
    ({ [own]: octets === null ? null : read(octets), [other]: INHERIT[other], mode }));
  const found = tried(() => issuer.verifyPath(path));
  if (found instanceof Resources) return expected.result === "valid" && found.text(KINDS[kind]) === expected.text;
  return found.verified === expected.certificate && found.excess.text(KINDS[kind]) === expected.overclaimed;
}

function sameUpdate({ table, announced, withdrawn }, expected) {
  const found = tried(() => new Table(table).withChanges(announced, withdrawn));
  if (!(found instanceof Table)) return (found.status & 0xff) === expected.errorCode && found.index === expected.index;
  const texts = [[...found.vrps()], expected.vrps].map((it) => it.map(vrpText).sort().join());
  return texts[0] === texts[1];
}

const SAME = {
  der_as: ({ octets }, expected) => sameDer("as", octets, expected, [expected.text]),
  der_ip: ({ octets }, expected) => sameDer("ip", octets, expected, [expected.v4, expected.v6]),
  text_as: ({ text }, expected) => sameText(text, "asn", expected),
  text_ip: ({ text, family }, expected) => sameText(text, KINDS[family], expected),
  set_operations({ kind, left, right, operation }, { text, holds }) {
    const [a, b] = [left, right].map((it) => Resources.fromText(it.join(), KINDS[kind])), found = a[operation](b);
    return text === undefined ? found === holds : found.text(KINDS[kind]) === text;
  },
  prefix_cover: ({ blocks, family }, { prefixes }) =>
    Resources.fromText(blocks.join(), KINDS[family]).prefixes(KINDS[family]).join() === prefixes.join(),
  origin_validation: ({ vrps, ...route }, { validity }) =>
    new Table(vrps).validate(route).replace(/-(as|length)$/, "") === validity,
  verify_path: samePath,
  vrp_updates: sameUpdate,
  vrp_files({ text, octets }, { vrps, reason, result }) {
    const found = tried(() => Pigyelund.readVrps(text === undefined ? read(octets) : new TextEncoder().encode(text)));
    const texts = found instanceof Pigyelund.Error ? null : [...found].map(vrpText).join();
    if (texts !== null) return vrps !== undefined && texts === vrps.map(vrpText).join();
    const line = /^(?:line|item) (\d+): (?!neither)/.exec(reason)?.[1] ?? 0;
    return result === "invalid" && (found.line ?? 0) === Number(line);
  },
};
return cases.filter((it) => !SAME[subject](it.input, it.expected)).map((it) => it.tcId);
