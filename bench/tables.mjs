// tables.mjs [VRPS ROUTES]: measures a table of VRPs of Pigyelund in Node, with the VRPs and the routes of tables.c.
//
// The program prints how long these take: making the table, all routes in one call as a buffer, and as texts. It also
// prints how many routes have each validity. Times are in milliseconds, the least of ROUNDS.
import { createRequire } from "node:module";

const require = createRequire(import.meta.url);
require(process.env.PIGYELUND_MODULE ?? "../web/module.js");
require("../foreign/js/pigyelund.js");
const { Pigyelund } = globalThis;
const [vrps, routes] = [process.argv[2] ?? 500000, process.argv[3] ?? 1000000].map(Number);
const ROUNDS = 3, STRUCT = 24;

let state = 6811n;

function nextNumber() { // xorshift64*
  state ^= state >> 12n;
  state ^= BigInt.asUintN(64, state << 25n);
  state ^= state >> 27n;
  return Number((BigInt.asUintN(64, state * 0x2545f4914f6cdd1dn)) >> 32n);
}

/** Writes a VRP into an array of structs. */
function makeVrp(octets, at) {
  const view = new DataView(octets.buffer, at * STRUCT, STRUCT);
  view.setUint32(16, 1 + (nextNumber() % 60000), true);
  let address = nextNumber(), length = 24;
  if (nextNumber() % 4 === 0) length = 12 + (nextNumber() % 12);
  address = ((address >>> (32 - length)) << (32 - length)) >>> 0;
  view.setUint32(0, address);
  octets.set([4, length, 24], at * STRUCT + 20);
}

const all = new Uint8Array(vrps * STRUCT), asked = new Uint8Array(routes * STRUCT), one = new Uint8Array(STRUCT);
for (let at = 0; at < vrps; at += 1) makeVrp(all, at);
for (let at = 0; at < 300; at += 1) makeVrp(one, 0); // the changes of tables.c
for (let at = 0; at < routes; at += 1) {
  const from = at % 2 ? (nextNumber() % vrps) * STRUCT : (makeVrp(one, 0), -1);
  asked.set(from < 0 ? one : all.subarray(from, from + STRUCT), at * STRUCT);
}

await Pigyelund.load();
const texts = [...new Pigyelund.Table(asked).vrps()].map(({ prefix, asn }) => `${prefix} AS${asn}`);
const least = [Infinity, Infinity, Infinity], counts = [0, 0, 0];
for (let round = 0; round < ROUNDS; round += 1) {
  const times = [performance.now()];
  const table = new Pigyelund.Table(all);
  times.push(performance.now());
  const { validities } = table.validate(asked);
  times.push(performance.now());
  table.validate(texts);
  times.push(performance.now());
  table.close();
  least.forEach((_, at) => (least[at] = Math.min(least[at], times[at + 1] - times[at])));
  if (round === 0) for (const it of validities) counts[it] += 1;
}
["made", "all routes in one call", "the same as texts"].forEach((what, at) =>
  console.log(`${what.padEnd(22)} ${least[at].toFixed(1).padStart(10)}`));
console.log(`valid ${counts[0]}, not found ${counts[1]}, invalid ${counts[2]}`);
