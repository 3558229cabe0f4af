// What the module does with its memory: it comes back, and a memory of a fixed size ends in errors, not in a trap.
import assert from "node:assert/strict";
import test from "node:test";
import { MODULE, Pigyelund, Raw, errorOf } from "./support.mjs";

const { Resources, Table } = Pigyelund;

/** Returns the octets of the module with another greatest number of pages of its memory. */
function limited(pages) {
  const leb = (value) => (value < 128 ? [value] : [(value & 127) | 128, ...leb(value >>> 7)]);
  const read = (at) => {
    for (let value = 0, shift = 0; ; at += 1, shift += 7) {
      value += (MODULE[at] & 127) * 2 ** shift;
      if (MODULE[at] < 128) return [value, at + 1];
    }
  };
  for (let at = 8; at < MODULE.length; ) {
    const [size, from] = read(at + 1);
    if (MODULE[at] === 5) {
      const [count, flags] = MODULE.subarray(from), [least] = read(from + 2);
      assert.deepEqual([count, flags], [1, 1]); // one memory of 32 bits, with a limit
      const body = [1, 1, ...leb(least), ...leb(pages)], section = [5, ...leb(body.length), ...body];
      return Buffer.concat([MODULE.subarray(0, at), Buffer.from(section), MODULE.subarray(from + size)]);
    }
    at = from + size;
  }
  throw new Error("no memory");
}

/** Makes the module of a load and returns its memory, which the glue shows to nobody. */
async function loadedMemory(octets = MODULE) {
  const { instantiate } = WebAssembly;
  let memory;
  WebAssembly.instantiate = async (...words) => {
    const made = await instantiate(...words);
    memory = made.exports.memory;
    return made;
  };
  try {
    await Pigyelund.load(octets);
  } finally {
    WebAssembly.instantiate = instantiate;
  }
  return memory;
}

/** Returns the structs of so many VRPs of IPv4, of irregular prefixes. */
function vrps(count, seed = 1) {
  const octets = new Uint8Array(count * 24), view = new DataView(octets.buffer);
  for (let at = 0, state = seed; at < count; at += 1) {
    state = (state * 48271) % 2147483647;
    view.setUint32(at * 24, (state * 2) & 0xffffff00);
    view.setUint32(at * 24 + 16, state % 60000, true);
    octets.set([4, 24, 24], at * 24 + 20);
  }
  return octets;
}

test("10,000 tables keep the memory of the first ten", async () => {
  const memory = await loadedMemory(), octets = vrps(20);
  for (let count = 1, held = 0; count <= 10_000; count += 1) {
    const table = new Table(octets), next = table.withChanges(["1.0.0.0/8 AS1"], []);
    assert.equal(next.length, 21);
    table.close(), next.close();
    if (count === 10) held = memory.buffer.byteLength;
    if (count > 10) assert.equal(memory.buffer.byteLength, held);
  }
});

test("100 tables of 500,000 VRPs keep the memory of the first three", async () => {
  const memory = await loadedMemory();
  for (let count = 1, held = 0; count <= 100; count += 1) {
    const table = new Table(vrps(500_000, count));
    assert.equal(table.length, 500_000);
    table.close();
    if (count === 3) held = memory.buffer.byteLength;
    if (count > 3) assert.equal(memory.buffer.byteLength, held);
  }
});

test("errors keep the memory", async () => {
  const memory = await loadedMemory(), anchor = Resources.fromText("10.0.0.0/8", "ipv4");
  const claim = Resources.fromText("10.0.0.0/8, 12.0.0.0/8", "ipv4").der().ip;
  for (let count = 1, held = 0; count <= 20_000; count += 1) {
    const error = errorOf(() => anchor.verify(null, claim));
    error.excess.close();
    for (const run of [() => new Table(["10.0.0.1/8 AS1"]), () => Pigyelund.answer("x"),
      () => Resources.read(null, claim.subarray(1)), () => anchor.verifyPath([{}])]) errorOf(run);
    if (count === 10) held = memory.buffer.byteLength;
    if (count > 10) assert.equal(memory.buffer.byteLength, held);
  }
});

test("handles that nobody has are freed", async () => {
  const collect = globalThis.gc;
  if (!collect) return;
  const memory = await loadedMemory(), octets = vrps(100_000);
  for (let count = 0; count < 100; count += 1) {
    new Table(octets);
    collect();
    await new Promise((done) => setTimeout(done));
  }
  assert.ok(memory.buffer.byteLength < 100 * 100_000 * 42 / 2, String(memory.buffer.byteLength));
});

test("a memory of a fixed size ends in errors", async () => {
  const octets = vrps(500_000), limits = [40, 60, 100, 200, 400, 600, 800, 1000];
  let most = 0;
  for (const pages of limits) {
    const memory = await loadedMemory(limited(pages));
    const kept = new Table(["10.0.0.0/8 AS1"]), set = Resources.fromText("10.0.0.0/8", "ipv4");
    for (let round = 0; round < 3; round += 1)
      for (let count = 1000; count <= 500_000; count += 83_000)
        try {
          new Table(octets.subarray(0, count * 24)).close();
          most = Math.max(most, count);
        } catch (error) {
          assert.deepEqual([error.code, error.message], ["MEMORY", "out of memory"]);
        }
    assert.ok(memory.buffer.byteLength <= pages * 65536);
    assert.equal(kept.validate("10.0.0.0/8 AS1"), "valid");
    assert.equal(set.text("ipv4"), "10.0.0.0/8");
  }
  assert.ok(most > 400_000);
  await loadedMemory(limited(40));
  assert.equal(errorOf(() => new Table(octets)).code, "MEMORY");
  assert.equal(errorOf(() => Pigyelund.readVrps(new Uint8Array(1 << 22))).code, "MEMORY");
  assert.equal(errorOf(() => Pigyelund.answer("norm as " + "1,".repeat(1 << 20))).code, "MEMORY");
});

test("an overflow of the stack traps", async () => {
  const module = Buffer.from(MODULE), pointer = Buffer.from("428080c0000b", "hex"); // i64.const 1048576 as a global
  const at = module.indexOf(pointer);
  assert.ok(at > 0 && module.indexOf(pointer, at + 1) < 0);
  Buffer.from("42809080000b", "hex").copy(module, at); // 2048
  const deep = Buffer.from(`{"x":${"[".repeat(120)}${"]".repeat(120)},"roas":[]}`);
  await Pigyelund.load(MODULE);
  assert.deepEqual([errorOf(() => Pigyelund.readVrps(deep))].map((it) => [it.code, it.fault]), [["BAD_FILE", 6]]);
  await Pigyelund.load(module);
  assert.equal(errorOf(() => Pigyelund.readVrps(deep)).code, "TRAPPED");
});

test("malloc of the module at its limits", async () => {
  const { exports } = await Raw.of(MODULE);
  for (const size of [2n ** 63n, 2n ** 63n - 1n, 2n ** 64n - 1n, 2n ** 32n, 2n ** 46n, 2n ** 32n - 2n ** 20n])
    assert.equal(exports.malloc(BigInt.asIntN(64, size)), 0n, String(size));
  const [none, other] = [exports.malloc(0n), exports.malloc(0n)];
  assert.ok(none !== 0n && other !== 0n && none !== other && none % 16n === 0n);
  exports.free(0n), exports.free(none), exports.free(other);
  const large = exports.malloc(3n << 30n);
  assert.ok(large > 0n);
  new Uint8Array(exports.memory.buffer, Number(large) + 3 * 2 ** 30 - 1, 1)[0] = 1;
  assert.equal(exports.malloc(2n << 30n), 0n);
  exports.free(large);
});
