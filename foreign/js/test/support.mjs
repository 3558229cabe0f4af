// What the tests share: the scripts of this clone, and calls of the module without the glue. In a browser the tests are
// modules of a server, and web/test/test.py starts them.
const TOP = new URL("../../../", import.meta.url), isNode = typeof process === "object";

/** Returns the text of a file of this clone. */
export async function textOf(name) {
  if (!isNode) return (await fetch(new URL(name, TOP))).text();
  return (await import("node:fs/promises")).readFile(new URL(name, TOP), "utf8");
}

const given = isNode && process.env.PIGYELUND_MODULE;
await import(given ? (await import("node:url")).pathToFileURL(given).href : new URL("web/module.js", TOP).href);
await import("../pigyelund.js");

export const { Pigyelund, PigyelundModule } = globalThis;
export const MODULE = Uint8Array.from(atob(PigyelundModule.base64), (it) => it.charCodeAt(0));
export const STATUS = Object.fromEntries((await textOf("foreign/numbers.txt")).trim().split("\n")
  .map((line) => /NUMBER\((\w+), (\d+)\)/.exec(line)).map(([, name, number]) => [name, Number(number)]));

/** Returns the lines of a file of out/foreign, which tests/run/foreign_rows.py makes. */
export const linesOf = async (name) => (await textOf(`out/foreign/${name}`)).split("\n").filter((line) => line);

/** Returns octets for a text of hexadecimal digits. */
export const octetsOf = (text) =>
  Uint8Array.from({ length: text === "-" ? 0 : text.length / 2 }, (_, at) => parseInt(text.substr(2 * at, 2), 16));

const DIGITS = Array.from({ length: 256 }, (_, octet) => octet.toString(16).padStart(2, "0"));

export const hex = (octets) => Array.from(octets ?? [], (it) => DIGITS[it]).join("") || "-";

/** The failed tests of a browser. Node reports its own. */
export const failures = [];

/** Runs a test. */
export const test = isNode ? (await import("node:test")).default : (name, run) => {
  try {
    run();
  } catch (reason) {
    failures.push(`${name}: ${reason}`);
  }
};

/** What Node has in node:assert, as far as tests in browsers need it. */
export const assert = isNode ? (await import("node:assert/strict")).default : {
  ok(value, text) {
    if (!value) throw new Error(text);
  },
  equal(found, expected, text) {
    if (!Object.is(found, expected)) throw new Error(`${found} is not ${expected}: ${text}`);
  },
  deepEqual(found, expected, text) {
    assert.equal(JSON.stringify(found), JSON.stringify(expected), text);
  },
};

/** Returns the error of a call, or fails. */
export function errorOf(run) {
  try {
    run();
  } catch (reason) {
    if (reason instanceof Pigyelund.Error) return reason;
    throw reason;
  }
  throw new Error("no error");
}

/** Calls of the module without the glue. */
export class Raw {
  static async of(octets = MODULE) {
    const it = new Raw();
    it.exports = (await WebAssembly.instantiate(octets, {})).instance.exports;
    it.taken = [];
    return it;
  }

  room(count, filled = 0) {
    const at = this.exports.malloc(BigInt(count));
    if (at === 0n) throw new Error("out of memory");
    this.taken.push(at);
    this.octets(at, count).fill(filled);
    return at;
  }

  octets(at, count) {
    return new Uint8Array(this.exports.memory.buffer, Number(at), count);
  }

  given(octets) {
    const at = this.room(octets.length);
    this.octets(at, octets.length).set(octets);
    return [at, BigInt(octets.length)];
  }

  word(at) {
    return Number(new DataView(this.exports.memory.buffer).getBigUint64(Number(at), true));
  }

  end() {
    for (const at of this.taken) this.exports.free(at);
    this.taken = [];
  }
}
