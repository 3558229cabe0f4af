// All cases of vectors/, answered by the glue: web/test/vectors.js, which web/test/test.py runs in browsers too.
import assert from "node:assert/strict";
import { readdirSync } from "node:fs";
import test from "node:test";
import { Pigyelund, textOf } from "./support.mjs";

globalThis.window = globalThis;
await Pigyelund.load();
const differing = new Function(await textOf("web/test/vectors.js"));

for (const file of readdirSync(new URL("../../../vectors", import.meta.url)).filter((it) => it.endsWith(".json"))) {
  const { tests } = JSON.parse(await textOf(`vectors/${file}`));
  test(`${tests.length} cases of ${file}`, () => assert.deepEqual(differing(file.slice(0, -5), tests), []));
}
