// The types by tsc --strict, the files of the package by npm, and the package as import and require find it. A test
// without its tool is skipped by name.
import assert from "node:assert/strict";
import { spawnSync } from "node:child_process";
import { copyFileSync, mkdirSync, mkdtempSync, readFileSync, rmSync, writeFileSync } from "node:fs";
import { tmpdir } from "node:os";
import { join } from "node:path";
import test from "node:test";

const HERE = new URL(".", import.meta.url).pathname;
const MODULE = process.env.PIGYELUND_MODULE ?? join(HERE, "../../../web/module.js");

function ran(...words) {
  return ranIn(HERE, ...words);
}

function ranIn(cwd, ...words) {
  const { status, stdout, stderr, error } = spawnSync(words[0], words.slice(1), { cwd, encoding: "utf8" });
  return { status, stdout, stderr, isMissing: error?.code === "ENOENT" };
}

/** Runs a function with a folder that has the package in node_modules, and these files. */
function withPackage(files, run) {
  const folder = mkdtempSync(join(tmpdir(), "pigyelund-")), made = join(folder, "node_modules", "pigyelund");
  try {
    mkdirSync(made, { recursive: true });
    for (const name of ["index.mjs", "package.json", "pigyelund.d.ts", "pigyelund.js"])
      copyFileSync(join(HERE, "..", name), join(made, name));
    copyFileSync(MODULE, join(made, "module.js"));
    for (const [name, text] of Object.entries(files)) writeFileSync(join(folder, name), text);
    return run(folder);
  } finally {
    rmSync(folder, { recursive: true });
  }
}

const tsc = (file) => ran("tsc", "--strict", "--noEmit", "--target", "es2022", "--moduleResolution", "node", file);

test("right calls have right types", (t) => {
  const { status, stdout, isMissing } = tsc("right_calls.ts");
  if (isMissing) return t.skip("left out: tsc");
  assert.equal(status, 0, stdout);
});

test("right calls have right types for import and for require, without the types of a browser", (t) => {
  const text = readFileSync(`${HERE}right_calls.ts`, "utf8").replace("../pigyelund", "pigyelund");
  const log = "declare const console: { log(...words: unknown[]): void };\n";
  withPackage({ "a.mts": log + text, "b.cts": log + text }, (folder) => {
    const { status, stdout, isMissing } = ranIn(folder, "tsc", "--strict", "--noEmit", "--lib", "es2017",
      "--target", "es2017", "--module", "nodenext", "a.mts", "b.cts");
    if (isMissing) return t.skip("left out: tsc");
    assert.equal(status, 0, stdout);
  });
});

test("import and require find the same names", () => {
  const body = `P.load().then(({ version }) => console.log(typeof version, new P.Table(["10.0.0.0/8 AS1"]).length,
    P.default === P, P === globalThis.Pigyelund, typeof P.source, P.Resources === Resources));\n`;
  const required = 'const P = require("pigyelund"), { Resources } = P;\n';
  const files = { "a.mjs": `import P, { Resources } from "pigyelund";\n${body}`, "b.cjs": required + body,
    "c.mjs": `import { createRequire } from "node:module";\nimport { Resources } from "pigyelund";\n` +
      `const P = createRequire(import.meta.url)("pigyelund");\n${body}`,
    "d.cjs": `require("pigyelund/module.js");\n` +
      `const P = require("pigyelund/pigyelund.js"), { Resources } = P;\n${body}` };
  const old = "--no-experimental-require-module"; // as Node before 20.19
  const flags = process.allowedNodeEnvironmentFlags.has(old) ? [old] : [];
  withPackage(files, (folder) => {
    for (const name of Object.keys(files)) {
      const { stdout, stderr } = ranIn(folder, process.execPath, ...flags, name);
      assert.equal(stdout, "string 1 true true string true\n", name + stderr);
    }
  });
});

test("each wrong call is refused", (t) => {
  const { stdout, isMissing } = tsc("wrong_calls.ts");
  if (isMissing) return t.skip("left out: tsc");
  const lines = readFileSync(`${HERE}wrong_calls.ts`, "utf8").split("\n");
  const wrong = lines.flatMap((line, at) => (/^(new|if|set|table|\w+\(|Resources)/.test(line) ? [at + 1] : []));
  const refused = new Set([...stdout.matchAll(/^wrong_calls\.ts\((\d+),/gm)].map((it) => Number(it[1])));
  assert.ok(wrong.length > 30);
  assert.deepEqual([...refused], wrong, stdout);
});

test("the package has six files, and the licence in one of them", (t) => {
  const { stdout, isMissing } = ran("npm", "pack", "--dry-run", "--json", "..");
  if (isMissing) return t.skip("left out: npm");
  const names = JSON.parse(stdout.slice(stdout.indexOf("[")))[0].files.map((it) => it.path).sort();
  assert.deepEqual(names, ["README.md", "index.mjs", "module.js", "package.json", "pigyelund.d.ts", "pigyelund.js"]);
  const [module, licence] = ["web/module.js", "LICENSE"].map((name) => readFileSync(`${HERE}../../../${name}`, "utf8"));
  assert.ok(module.includes(licence));
});
