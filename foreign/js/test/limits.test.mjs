// Arguments at their limits, and what happens after an error: each call is refused by an error with a code.
import assert from "node:assert/strict";
import { readFileSync } from "node:fs";
import test from "node:test";
import { inspect } from "node:util";
import { MODULE, Pigyelund, STATUS, errorOf } from "./support.mjs";

const { Resources, Table } = Pigyelund;
const NUMBERS = [2 ** 53, 2 ** 32, NaN, -1, -0.5, Infinity, "5x", "", 5n, null, undefined, {}, [], true, Symbol("5")];
const ROUTE = "10.0.0.0/16 AS64496";

test("no call before load", async () => {
  for (const run of [() => new Table([]), () => Pigyelund.answer("x"), () => Resources.fromText("", "asn")])
    assert.equal(errorOf(run).code, "NOT_LOADED");
  await Pigyelund.load();
});

const refused = (run, code = "ARGUMENT") => assert.equal(errorOf(run).code, code, String(run));

test("numbers that are none", () => {
  const set = Resources.fromText("0-4294967295", "asn"), table = new Table(["10.0.0.0/8 AS1"]);
  assert.ok(set.containsAsn(2 ** 32 - 1) && set.containsAsn(0) && set.containsAsn(-0));
  for (const it of NUMBERS) {
    refused(() => set.containsAsn(it));
    refused(() => new Table([{ prefix: "10.0.0.0/8", asn: it }]));
    refused(() => table.validate({ prefix: "10.0.0.0/8", asn: it }));
    if (it !== 2 ** 32 && it !== -1) refused(() => table.vrps().at(it));
    if (it !== null && it !== undefined) refused(() => new Table([{ prefix: "10.0.0.0/8", maxLength: it, asn: 1 }]));
  }
  assert.equal(table.vrps().at(1), undefined);
  assert.equal(table.vrps().at(Number.MAX_SAFE_INTEGER), undefined);
  assert.equal(table.vrps().at(-2), undefined);
  assert.equal(table.vrps().at(-Number.MAX_SAFE_INTEGER), undefined);
  assert.deepEqual(new Table(["11.0.0.0/8 AS2", "10.0.0.0/8 AS1"]).vrps().at(-1),
    { prefix: "11.0.0.0/8", maxLength: 8, asn: 2 });
});

test("words that are none", () => {
  const set = Resources.fromText("AS1", "asn");
  for (const it of ["", "STRICT", "toString", "__proto__", "constructor", 16, null, {}, ["strict"], Symbol("strict")]) {
    refused(() => Resources.read(null, null, it));
    refused(() => set.verify(new Uint8Array(1), null, it));
    refused(() => set.verify(new Uint8Array(1), null, "strict", it));
    refused(() => set.verifyPath([], it));
    refused(() => set.verifyPath([{ mode: it }]));
    refused(() => Resources.fromText("", it));
    refused(() => set.text(it));
    refused(() => set.prefixes(it));
    refused(() => set.ipRanges(it));
  }
});

test("what is no text, no list and no object of ours", () => {
  const set = Resources.fromText("AS1", "asn"), table = new Table([]);
  for (const it of [5, null, undefined, {}, new Uint8Array(3), Symbol("x"), () => 1]) {
    refused(() => Pigyelund.answer(it));
    refused(() => Resources.fromText(it, "asn"));
    refused(() => set.containsPrefix(it));
    refused(() => set.union(it));
    refused(() => set.contains(it));
    refused(() => table.changes(it));
    refused(() => table.revalidate(it, []));
    refused(() => new Resources(it));
    if (!(it instanceof Uint8Array)) refused(() => Pigyelund.readVrps(it));
    refused(() => new Table(it));
    refused(() => table.validate([it]));
    refused(() => set.verifyPath(it));
  }
  refused(() => new Table("10.0.0.0/8 AS1"));
  refused(() => set.verifyPath("x"));
  refused(() => set.union(table));
  refused(() => table.changes(set));
  for (const run of [() => Resources.prototype.text.call(table, "asn"), () => Resources.prototype.close.call({})])
    assert.throws(run, TypeError);
});

test("texts of VRPs and of routes", () => {
  const table = new Table([]), prefix = "10.0.0.0/8";
  for (const it of [`${prefix},24`, `${prefix}\n`, `${prefix}-24`, ",", "", ` ${prefix}`, `${prefix} AS1`, "P"]) {
    refused(() => new Table([{ prefix: it, asn: 1 }]));
    refused(() => table.validate([{ prefix: it, asn: 1 }, ROUTE]));
  }
  for (const asn of ["ASN", `AS1 ${prefix}`, "AS1\n", "", "-1", "+1", "1.5", "1e3", "0x1"])
    refused(() => new Table([{ prefix, asn }]));
  const long = `${prefix} AS${"0".repeat(100_000)}1`;
  assert.equal(new Table([long, { prefix, asn: "as1" }]).length, 2);
  for (const it of ["", "\n", prefix, "AS1", `${prefix},AS1`, `${prefix} AS1 AS2`, `${prefix} AS1\n${prefix} AS2`,
    "10.0.0.1/8 AS1", "\ud800 AS1", "x".repeat(100_000)]) {
    for (const [run, code] of [[() => new Table([ROUTE, it, ROUTE]), "BAD_LINE"],
      [() => table.validate([ROUTE, it, ROUTE]), "BAD_ROUTE"]]) {
      const error = errorOf(run);
      assert.deepEqual([error.code, error.index], [code, 1], it.slice(0, 60));
    }
    assert.equal(errorOf(() => table.validate(it)).index, 0);
  }
});

test("buffers of structs", () => {
  const table = new Table([]), octets = new Table(["10.0.0.0/8-16 AS64496"]).vrps().octets;
  for (const length of [1, 23, 25, 47]) refused(() => table.validate(new Uint8Array(length)));
  assert.deepEqual(table.validate(new Uint8Array(0)), { validities: new Uint8Array(0), reasons: new Uint8Array(0) });
  const error = errorOf(() => table.validate(new Uint8Array(48)));
  assert.deepEqual([error.code, error.index, error.isSecond], ["BAD_FAMILY", 0, true]);
  const wide = new Uint8Array(100);
  wide.set(octets, 7);
  for (const it of [new Uint8Array(wide.buffer, 7, 24), new DataView(wide.buffer, 7, 24), octets.buffer.slice(0, 24)])
    assert.equal(new Table(it).validate(ROUTE), "valid");
  for (const Kind of [Int8Array, Uint8ClampedArray])
    assert.equal(new Table(new Kind(octets.buffer.slice(0, 24))).validate(ROUTE), "valid");
  for (const Kind of [Uint16Array, Int16Array, Uint32Array, Int32Array, Float32Array, Float64Array, BigUint64Array]) {
    const words = new Kind(octets.buffer.slice(0, 24));
    for (const run of [() => new Table(words), () => table.validate(words), () => Pigyelund.readVrps(words),
      () => Resources.read(null, words), () => Pigyelund.addressText(words)]) refused(run);
  }
});

test("unknown members", () => {
  const table = new Table([ROUTE]), prefix = "10.0.0.0/8", set = Resources.fromText("AS1", "asn");
  const named = (run, name, place) => {
    const { code, message, index, isSecond } = errorOf(run);
    assert.deepEqual([code, message.includes(`unknown member "${name}"`), { index, isSecond }], ["ARGUMENT", true,
      { isSecond: undefined, ...place }], String(run));
  };
  for (const name of ["maxlength", "maxLen", "max_length", "expires", "constructor"]) {
    const vrp = { prefix, asn: 1, [name]: 16 };
    for (const run of [() => new Table([ROUTE, vrp]), () => table.withChanges([ROUTE, vrp], []),
      () => Pigyelund.applySlurm(slurmOf([], []), [ROUTE, vrp])]) named(run, name, { index: 1 });
    named(() => table.withChanges([], [vrp]), name, { index: 0, isSecond: true });
  }
  for (const [name, route] of [["maxLength", { prefix, asn: 1, maxLength: 8 }], ["as", { prefix, asn: 1, as: 1 }]])
    for (const run of [() => table.validate(route), () => table.validate([route]), () => table.covering(route),
      () => table.revalidate(table, [route]), () => Pigyelund.validateRoutes([table], [route])])
      named(run, name, { index: 0, isSecond: true });
  for (const name of ["asn", "Mode", "AS"]) named(() => set.verifyPath([{}, { [name]: null }]), name, { index: 1 });
});

/** Returns the octets of a SLURM file with these prefix filters and prefix assertions. */
const slurmOf = (prefixFilters, prefixAssertions, more = {}) => new TextEncoder().encode(JSON.stringify({
  slurmVersion: 1, validationOutputFilters: { prefixFilters, bgpsecFilters: [] },
  locallyAddedAssertions: { prefixAssertions, bgpsecAssertions: [] }, ...more }));

test("SLURM files, and VRPs of each form", () => {
  const file = slurmOf([{ asn: 64497 }], [{ asn: 1, prefix: "::/0" }]), { applySlurm } = Pigyelund;
  const texts = ["10.0.0.0/8 AS64496", "10.0.0.0/8 AS64497"], { octets } = new Table(texts).vrps();
  const expected = [{ prefix: "10.0.0.0/8", maxLength: 8, asn: 64496 }, { prefix: "::/0", maxLength: 0, asn: 1 }];
  for (const vrps of [texts, octets, octets.buffer, new Set(texts), new Table(texts).vrps()])
    assert.deepEqual([...applySlurm(file, vrps)], expected);
  const many = Array.from({ length: 50_000 }, (_, at) => ({ asn: at, prefix: "::/0" }));
  assert.equal(applySlurm(slurmOf([], many).buffer, applySlurm(file, texts)).length, 50_002);
  for (const it of [5, null, undefined, "{}", [], {}]) refused(() => applySlurm(it, []));
  for (const it of [5, null, undefined, "10.0.0.0/8 AS1", new Uint8Array(25), new Table([])])
    refused(() => applySlurm(file, it));
  const errors = [
    [slurmOf([{ asn: 1 }, {}], []), [], { code: "BAD_SLURM_ITEM", fault: 7, list: "prefixFilters", item: 2 }],
    [slurmOf([], [{ asn: 1, prefix: "10.0.0.1/8" }]), [],
      { code: "BAD_SLURM_ITEM", fault: 2 * 64 + 3, list: "prefixAssertions", item: 1 }],
    [slurmOf([], [], { moon: 1 }), [], { code: "BAD_SLURM", fault: 2, item: 4 }],
    [slurmOf([], [], { slurmVersion: 2 }), [], { code: "BAD_SLURM", fault: 3 }],
    [new Uint8Array(0), [], { code: "BAD_SLURM", fault: 1 }],
    [file, [ROUTE, "10.0.0.1/8 AS1"], { code: "BAD_LINE", fault: 5, index: 1 }],
    [new Uint8Array(0), new Uint8Array(48), { code: "BAD_FAMILY", index: 0 }],
  ];
  for (const [given, vrps, wanted] of errors) {
    const { name, status, ...found } = errorOf(() => applySlurm(given, vrps));
    assert.deepEqual([name, found], ["Pigyelund.Error", wanted]);
  }
});

test("subclasses with other lengths", () => {
  class Longer extends Uint8Array {
    get length() {
      return 2 ** 53;
    }
    get byteLength() {
      return 2 ** 53;
    }
  }
  const it = new Longer(24);
  assert.equal(errorOf(() => new Table(it)).code, "BAD_FAMILY");
  refused(() => new Table({ length: 2 ** 53 }));
  refused(() => new Table({ length: -1, 0: ROUTE }));
});

test("detached buffers", () => {
  const buffer = new ArrayBuffer(24), view = new Uint8Array(buffer), data = new DataView(buffer);
  const set = Resources.fromText("AS1", "asn");
  structuredClone(buffer, { transfer: [buffer] });
  for (const it of [buffer, view, data]) {
    refused(() => new Table(it));
    refused(() => Pigyelund.readVrps(it));
    refused(() => Pigyelund.applySlurm(it, []));
    refused(() => Pigyelund.applySlurm(new Uint8Array(0), it));
    refused(() => Resources.read(null, it));
    refused(() => set.verify(it, null));
    refused(() => set.verifyPath([{ as: it }]));
  }
});

test("a list whose buffer was transferred", () => {
  const table = new Table([ROUTE]), list = table.vrps(), none = new Table([]).vrps();
  for (const { octets } of [list, none]) structuredClone(octets, { transfer: [octets.buffer] });
  for (const run of [() => list.length, () => list.at(0), () => [...list], () => list.subset(new Uint8Array(1)),
    () => new Table(list), () => table.validate(list), () => new Table(none)]) refused(run);
  assert.deepEqual([...none], []);
});

test("subsets of a list", () => {
  const old = new Table(["10.0.0.0/8-16 AS1"]), next = old.withChanges([], ["10.0.0.0/8-16 AS1"]);
  const lines = "10.0.0.0/8 AS1\n11.0.0.0/8 AS1\n10.1.0.0/16 AS1\n10.0.0.0/8 AS2\n";
  const routes = Pigyelund.readRoutes(new TextEncoder().encode(lines)), changed = old.revalidate(next, routes);
  assert.deepEqual(changed, Uint8Array.of(1, 0, 1, 1));
  assert.deepEqual(Array.from(routes.subset(changed), (it) => it.prefix), ["10.0.0.0/8", "10.1.0.0/16", "10.0.0.0/8"]);
  assert.deepEqual(Array.from(next.validate(routes.subset(changed)).validities), [1, 1, 1]);
  assert.equal(routes.subset(new Uint8Array(4)).length, 0);
  for (const it of [new Uint8Array(3), new Uint8Array(5), [1, 0, 1, 1], null, undefined, 4])
    refused(() => routes.subset(it));
});

test("revalidate compares no reasons", () => {
  const old = new Table(["10.0.0.0/8 AS2"]), next = new Table(["10.0.0.0/8 AS64496"]);
  assert.deepEqual([old.validate(ROUTE), next.validate(ROUTE)], ["invalid-as", "invalid-length"]);
  assert.deepEqual(old.revalidate(next, [ROUTE]), [false]);
});

test("isSecond of withdrawn VRPs and of routes", () => {
  const table = new Table([ROUTE]), octets = new Uint8Array(24), prefix = "10.0.0.0/8";
  for (const it of ["10.0.0.0/8 AS1", "x", { prefix, asn: "x" }, { prefix, asn: 1 }, { prefix: "x", asn: 1 }, 5]) {
    const { index, isSecond } = errorOf(() => table.withChanges([ROUTE], [ROUTE, it]));
    assert.deepEqual([index, isSecond], [1, true], String(it));
  }
  assert.equal(errorOf(() => table.withChanges([], octets)).isSecond, true);
  for (const it of ["x", ROUTE, 5, { prefix, asn: -1 }])
    assert.equal(errorOf(() => table.withChanges([it], [])).isSecond, undefined, String(it));
  for (const it of ["x", { prefix, asn: "x" }, octets])
    for (const run of [() => table.validate(hasList(it)), () => table.revalidate(table, hasList(it))])
      assert.deepEqual([errorOf(run).index, errorOf(run).isSecond], [0, true]);
  assert.equal(errorOf(() => Resources.fromText("AS1", "asn").containsPrefix("10.0.0.1/8")).isSecond, undefined);
});

const hasList = (it) => (it instanceof Uint8Array ? it : [it]);

test("what a set and a table print", () => {
  const set = Resources.fromText("AS1-AS3", "asn").union(Resources.fromText("10.0.0.0/8", "ipv4"));
  const table = new Table([ROUTE]), none = Resources.fromText("", "asn");
  assert.deepEqual([`${set}`, `${none}`, `${table}`], ["AS1-AS3, 10.0.0.0/8", "", "1 VRP"]);
  assert.deepEqual([set, table].map((it) => inspect(it)), ["Resources { AS1-AS3, 10.0.0.0/8 }", "Table { 1 VRP }"]);
  table.close();
  assert.equal(inspect(table), "Table { closed }");
});

test("shared buffers", async () => {
  const shared = new SharedArrayBuffer(24), octets = new Table(["10.0.0.0/8-16 AS64496"]).vrps().octets;
  new Uint8Array(shared).set(octets);
  for (const it of [shared, new Uint8Array(shared), new DataView(shared)])
    assert.equal(new Table(it).validate(ROUTE), "valid");
  const der = Resources.fromText("10.0.0.0/8", "ipv4").der().ip;
  const place = new Uint8Array(new SharedArrayBuffer(der.length));
  place.set(der);
  assert.equal(Resources.read(null, place).text("ipv4"), "10.0.0.0/8");
});

test("no call after close", () => {
  const set = Resources.fromText("10.0.0.0/8", "ipv4"), other = set.union(set), table = new Table([ROUTE]);
  set.close(), set.close(), table.close(), table.close();
  const calls = [() => set.text("asn"), () => set.der(), () => set.asRanges(), () => set.union(other),
    () => other.contains(set), () => set.equal(set), () => set.verify(null, null), () => set.verifyPath([]),
    () => set.containsAsn(1), () => set.containsPrefix("10.0.0.0/8"), () => set.prefixes("ipv4"), () => table.length,
    () => table.validate([]), () => table.vrps(), () => table.changes(table), () => table.covering(ROUTE),
    () => table.withChanges([], []), () => table.revalidate(new Table([]), [])];
  for (const run of calls) refused(run, "CLOSED");
  assert.equal(other.text("ipv4"), "10.0.0.0/8");
});

test("handles of two loads", async () => {
  const old = Resources.fromText("10.0.0.0/8", "ipv4"), table = new Table([ROUTE]);
  await Pigyelund.load(MODULE);
  const set = Resources.fromText("10.0.0.0/8", "ipv4");
  for (const run of [() => old.union(set), () => set.contains(old), () => table.changes(new Table([]))]) refused(run);
  assert.equal(old.text("ipv4"), set.text("ipv4"));
  assert.equal(table.validate(ROUTE), "valid");
  assert.equal(Resources.read(old.der().as, old.der().ip).equal(set), true);
});

test("modules that are none", async () => {
  for (const [given, code] of [[new Uint8Array(8), "ENGINE"], ["x", "ARGUMENT"], [null, "ARGUMENT"]])
    await assert.rejects(Pigyelund.load(given), (error) => error.code === code && error instanceof Pigyelund.Error);
  const { compile } = WebAssembly;
  WebAssembly.compile = async () => {
    throw new WebAssembly.CompileError("Wasm code generation disallowed by embedder");
  };
  try {
    await assert.rejects(Pigyelund.load(MODULE), { name: "Pigyelund.Error", code: "ENGINE", message: /disallowed/ });
  } finally {
    WebAssembly.compile = compile;
  }
});

/** Returns a module whose malloc traps. */
async function trapping() {
  const text = "0061736d01000000" + "010601" + "60017e017e"; // a type: i64 to i64
  const memory = "03020100" + "0503010001" + "0713" + "02" + "066d656d6f7279" + "0200" + "066d616c6c6f63" + "0000";
  return WebAssembly.compile(Buffer.from(text + memory + "0a05" + "01" + "0300000b", "hex"));
}

test("a trap ends the instance", async () => {
  const before = Resources.fromText("AS1", "asn");
  assert.deepEqual(await Pigyelund.load(await trapping()), {});
  for (let call = 0; call < 2; call += 1) {
    const error = errorOf(() => new Table([ROUTE]));
    assert.equal(error.code, "TRAPPED");
    assert.match(error.message, /call Pigyelund.load again/);
  }
  assert.equal(before.text("asn"), "AS1");
  await Pigyelund.load();
  assert.equal(new Table(["10.0.0.0/16 AS64496"]).validate(ROUTE), "valid");
});

test("an empty extension is invalid, and an absent one is not", () => {
  const none = new Uint8Array(0), anchor = Resources.fromText("10.0.0.0/8", "ipv4");
  assert.equal(Resources.read(null, null).text("ipv4"), "");
  const der = anchor.der().ip;
  for (const run of [() => Resources.read(null, undefined), () => Resources.read(undefined, der),
    () => Resources.read(der), () => anchor.verify(undefined, der), () => anchor.verify(null),
    () => anchor.verifyPath([{ as: undefined, ip: der }]), () => anchor.verifyPath([{ as: null, ip: undefined }])])
    refused(run);
  for (const it of [{ ip: der }, { as: null, ip: der }, Object.create({ ip: der })])
    assert.equal(anchor.verifyPath([it]).text("ipv4"), "10.0.0.0/8");
  for (const [words, status] of [[[none, null], STATUS.BAD_AS + 1], [[null, none], STATUS.BAD_IP + 1]]) {
    assert.equal(errorOf(() => Resources.read(...words)).status, status);
    assert.equal(errorOf(() => anchor.verify(...words)).status, STATUS.SECOND + status);
    assert.equal(errorOf(() => anchor.verifyPath([{ as: words[0], ip: words[1] }])).status, STATUS.SECOND + status);
  }
  assert.equal(errorOf(() => anchor.verify(null, null)).code, "ABSENT");
});

test("addresses as the module prints them", () => {
  let state = 1;
  const next = () => (state = (state * 48271) % 2147483647);
  for (let count = 0; count < 5000; count += 1) {
    const octets = Uint8Array.from({ length: 16 }, () => 0);
    for (let at = 0; at < 16; at += 2)
      if (next() % 2) octets[at + 1] = next() % 3 ? next() % 256 : 0, octets[at] = next() % 4 ? 0 : next() % 256;
    if (count % 50 === 0) octets.fill(0, 0, 10), octets.fill(255, 10, 12);
    const text = Pigyelund.addressText(octets), set = Resources.fromText(text, "ipv6");
    assert.equal(set.text("ipv6"), text);
    assert.deepEqual(set.ipRanges("ipv6")[0].minOctets, octets);
  }
  assert.equal(Pigyelund.addressText(Buffer.from([10, 0, 0, 1])), "10.0.0.1");
  for (const length of [0, 1, 3, 5, 8, 15, 17, 32]) refused(() => Pigyelund.addressText(new Uint8Array(length)));
  for (const it of ["abc", [10, 0, 0, 1], null, undefined, 10]) refused(() => Pigyelund.addressText(it));
});

test("the examples of README.md print what their comments say", async () => {
  const page = readFileSync(new URL("../README.md", import.meta.url), "utf8"), lines = [], expected = [];
  const { constructor: Async } = Object.getPrototypeOf(async () => 1);
  for (const [, code] of page.matchAll(/```js\n(.*?)```/gs)) {
    expected.push(...[...code.matchAll(/console\.log.*; \/\/ (.*)/g)].map((it) => it[1]));
    const run = code.replace(/^import (.*) from "pigyelund";/, "const $1 = Pigyelund;");
    await new Async("Pigyelund", "console", run)(Pigyelund, { log: (...words) => lines.push(words.join(" ")) });
  }
  assert.ok(lines.length > 2);
  assert.deepEqual(lines, expected);
});
