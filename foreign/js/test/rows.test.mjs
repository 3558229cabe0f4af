// All golden rows of out/foreign/rows.txt, through the glue and, for calls of octets, through the module alone with
// ample, exact and no room. tests/run/foreign_rows.py says what a row has.
import { MODULE, Pigyelund, Raw, STATUS, assert, hex, linesOf, octetsOf, test, textOf as fileOf } from "./support.mjs";

const { Resources, Table } = Pigyelund;
const ENCODINGS = { [STATUS.STRICT]: "strict", [STATUS.LENIENT]: "lenient" };
const MODES = { [STATUS.REFUSE]: "refuse", [STATUS.TRIM]: "trim" };
const FAMILIES = { [STATUS.IPV4]: "ipv4", [STATUS.IPV6]: "ipv6" };
const KINDS = { ...FAMILIES, [STATUS.ASN]: "asn" };
const ERRORS = { [STATUS.INVALID_AS]: "invalid-as", [STATUS.INVALID_LENGTH]: "invalid-length" };
const AMPLE = 8192;
const TYPES = await fileOf("foreign/js/pigyelund.d.ts");
/** The comment of each code in the types. */
const CODES = Object.fromEntries([...TYPES.matchAll(/^  \/\*\*((?:(?!\*\/)[^])*)\*\/\n  \| "(\w+)"/gm)]
  .map(([, comment, code]) => [code, comment.replace(/\n   \*/g, "")]));

await Pigyelund.load();
const raw = await Raw.of(MODULE);

/** A row: a call, its numbers, its octets, and the expected result. */
function rowOf(line) {
  const words = line.split(" "), call = words[0];
  const row = { line, call, numbers: words[1] === "-" ? [] : words[1].split(",").map(Number), places: [] };
  if (call === "path") {
    row.places = words[5] === "-" ? [] : words[5].split(";").map((it) => it.split(":").map(BigInt));
    words[5] = "-";
  }
  row.first = [octetsOf(words[2]), octetsOf(words[3])];
  row.second = [octetsOf(words[4]), octetsOf(words[5])];
  row.status = Number(words[6]);
  row.expected = [octetsOf(words[7]), octetsOf(words[8])];
  row.number = words[9] === "-" ? null : Number(words[9]);
  return row;
}

// ---- Through the glue ----

const known = (octets) => (octets.length ? octets : null);
const read = (pair, encoding) => Resources.read(known(pair[0]), known(pair[1]), ENCODINGS[encoding]);
const claim = (pair, present) => [0, 1].map((at) => (present & (at + 1) ? pair[at] : null));
const pairOf = (set) => [set.der().as ?? new Uint8Array(0), set.der().ip ?? new Uint8Array(0)];
const cut = (octets, size) =>
  Array.from({ length: octets.length / size }, (_, at) => octets.subarray(at * size, (at + 1) * size));
function joined(parts) {
  const all = new Uint8Array(parts.reduce((sum, it) => sum + it.length, 0));
  parts.reduce((at, it) => (all.set(it, at), at + it.length), 0);
  return all;
}
const utf8 = (text) => new TextEncoder().encode(text);

/** Compares what a call returns, or its error, with the row: two octet strings, or an answer. */
function same(row, run) {
  let found;
  try {
    found = run();
  } catch (reason) {
    if (!(reason instanceof Pigyelund.Error)) throw reason;
    const place = reason.verified ?? reason.index ?? reason.line ?? reason.item ?? 0;
    const excess = reason.excess ? pairOf(reason.excess) : [[], []];
    assert.deepEqual([reason.status, place, ...excess.map(hex)],
      [row.status, row.number ?? 0, ...row.expected.map(hex)], row.line);
    const { code, fault } = reason, numbers = [...(CODES[code] ?? "").matchAll(/[ `] ?(\d+): /g)].map((it) => it[1]);
    assert.ok(code in CODES && numbers.includes(String(fault)) === (fault !== undefined), `${code} ${fault}`);
    return;
  }
  assert.equal(row.status, 0, row.line);
  if (typeof found === "boolean") assert.equal(Number(found), row.number, row.line);
  else assert.deepEqual(found.map(hex), row.expected.map(hex), row.line);
}

function certificatesOf(row) {
  const run = row.second[0];
  return row.places.map((place) => place.map(Number)).map(([asStart, asLen, ipStart, ipLen, present, mode]) => {
    if (asStart + asLen > run.length || ipStart + ipLen > run.length || present > 3 || !(mode in MODES)) return null;
    const octets = [run.subarray(asStart, asStart + asLen), run.subarray(ipStart, ipStart + ipLen)];
    const [as, ip] = claim(octets, present);
    return { as, ip, mode: MODES[mode] };
  });
}

function both(row) {
  const first = read(row.first, row.numbers[0]);
  try {
    return [first, read(row.second, row.numbers[0])];
  } catch (reason) {
    reason.status += STATUS.SECOND;
    throw reason;
  }
}

/** The struct of a VRP (23 octets) or of a route (22), which has its AS number in network byte order in a row. */
const struct = (it) =>
  joined([it.subarray(0, 16), it.slice(16, 20).reverse(), it.subarray(20), new Uint8Array(24 - it.length)]);
const structs = (octets, size) => joined(cut(octets, size).map(struct));
const inRow = (octets, size) =>
  joined(cut(octets, 24).map((it) => joined([it.subarray(0, 16), it.slice(16, 20).reverse(), it.subarray(20, size)])));

/** Returns the object of a VRP or of a route, or null if it is malformed. */
function objectOf(it) {
  const [family, length, most] = it.subarray(20), bits = { 4: 32, 6: 128 }[family];
  if (bits === undefined || length > bits || (it.length === 23 && (most < length || most > bits))) return null;
  const address = it.subarray(0, bits / 8);
  const host = BigInt(`0x${hex(address)}`) & ((1n << BigInt(bits - length)) - 1n);
  if (host !== 0n) return null;
  const asn = new DataView(it.buffer, it.byteOffset).getUint32(16), prefix = `${Pigyelund.addressText(address)}/${length}`;
  return it.length === 23 ? { prefix, maxLength: most, asn } : { prefix, asn };
}

const textOf = ({ prefix, maxLength, asn }) =>
  `${prefix}${maxLength === undefined ? "" : `-${maxLength}`} AS${asn}`;

/** Returns VRPs or routes in each form that a call takes. */
function forms(octets, size) {
  const buffer = structs(octets, size), objects = cut(octets, size).map(objectOf);
  if (objects.includes(null)) return [buffer, buffer.buffer];
  return [buffer, new DataView(buffer.buffer), objects, objects.map(textOf), new Set(objects)];
}

function closing(table, run) {
  try {
    return run(table);
  } finally {
    table.close();
  }
}

function validated(table, form) {
  const found = table.validate(form);
  if (!Array.isArray(found)) return [found.validities, found.reasons];
  const words = { valid: [0, 0], "not-found": [1, 0], "invalid-as": [2, 1], "invalid-length": [2, 2] };
  return [0, 1].map((at) => found.map((word) => words[word][at]));
}

const GLUE = {
  verify(row) {
    const [encoding, present, mode] = row.numbers;
    if (!(encoding in ENCODINGS) || present > 3 || !(mode in MODES)) return;
    same(row, () => pairOf(read(row.first, encoding)
      .verify(...claim(row.second, present), ENCODINGS[encoding], MODES[mode])));
  },
  path(row) {
    const certificates = certificatesOf(row), [encoding] = row.numbers;
    if (!(encoding in ENCODINGS) || certificates.includes(null)) return;
    same(row, () => pairOf(read(row.first, encoding).verifyPath(certificates, ENCODINGS[encoding])));
  },
  contains_asn(row) {
    const [encoding, asn] = row.numbers;
    if (encoding in ENCODINGS) same(row, () => read(row.first, encoding).containsAsn(asn));
  },
  contains_prefix(row) {
    const [address, family, length] = [row.second[0].slice(0, 16), row.second[0][16], row.second[0][17]];
    const object = objectOf(joined([address, new Uint8Array(4), [family, length]]));
    const [encoding] = row.numbers;
    if (encoding in ENCODINGS && object) same(row, () => read(row.first, encoding).containsPrefix(object.prefix));
  },
  print(row) {
    const [encoding, kind] = row.numbers;
    if (!(encoding in ENCODINGS) || !(kind in KINDS)) return;
    same(row, () => [utf8(read(row.first, encoding).text(KINDS[kind])), []]);
  },
  cover(row) {
    const [encoding, family] = row.numbers;
    if (!(encoding in ENCODINGS) || !(family in FAMILIES)) return;
    same(row, () => {
      const found = read([new Uint8Array(0), row.first[0]], encoding).prefixes(FAMILIES[family]);
      return [joined(found.map((it) => {
        const address = Resources.fromText(it, FAMILIES[family]).ipRanges(FAMILIES[family])[0].minOctets;
        return joined([address, [Number(it.split("/")[1])]]);
      })), []];
    });
  },
  as_ranges(row) {
    const [encoding] = row.numbers;
    if (!(encoding in ENCODINGS)) return;
    same(row, () => {
      const found = read([row.first[0], new Uint8Array(0)], encoding).asRanges();
      const out = new DataView(new ArrayBuffer(found.length * 8));
      found.forEach(({ min, max }, at) => (out.setUint32(8 * at, min), out.setUint32(8 * at + 4, max)));
      return [new Uint8Array(out.buffer), []];
    });
  },
  ip_ranges(row) {
    const [encoding, family] = row.numbers;
    if (!(encoding in ENCODINGS) || !(family in FAMILIES)) return;
    same(row, () => {
      const found = read([new Uint8Array(0), row.first[0]], encoding).ipRanges(FAMILIES[family]);
      const padded = (it) => joined([it, new Uint8Array(16 - it.length)]);
      return [joined(found.flatMap((it) => [padded(it.minOctets), padded(it.maxOctets)])), []];
    });
  },
  origins(row) {
    for (const vrps of forms(row.first[0], 23))
      for (const routes of forms(row.second[0], 22))
        same(row, () => closing(new Table(vrps), (table) => validated(table, routes)));
    const vrps = cut(structs(row.first[0], 23), 24);
    const halves = [0, 1].map((half) => joined(vrps.filter((_, at) => at % 2 === half)));
    if (row.status === 0 && raw.exports.pigy_tables_validate_routes)
      closing(new Table(halves[0]), (even) => closing(new Table(halves[1]), (odd) =>
        same(row, () => {
          const both = { validate: (it) => Pigyelund.validateRoutes([even, odd], it) };
          return validated(both, structs(row.second[0], 22));
        })));
    if (row.status === 0)
      closing(new Table(structs(row.first[0], 23)), (table) =>
        cut(row.second[0], 22).map(objectOf).forEach((it, at) => {
          const word = ["valid", "not-found", ERRORS[row.expected[1][at]]][row.expected[0][at]];
          assert.equal(table.validate(it), word, row.line);
          assert.equal(table.validate(textOf(it)), word, row.line);
        }));
  },
  covering(row) {
    const [route, object] = [struct(row.second[0]), objectOf(row.second[0])];
    for (const vrps of forms(row.first[0], 23))
      for (const it of object ? [route, object, textOf(object)] : [route])
        same(row, () => closing(new Table(vrps), (table) => [joined(table.covering(it).map((one) => {
          const octets = new Table([one.vrp]).vrps().octets;
          return joined([inRow(octets, 23), [(one.otherAs ? 1 : 0) | (one.tooLong ? 2 : 0)]]);
        })), []]));
  },
  vrps(row) {
    for (const vrps of forms(row.first[0], 23))
      same(row, () => closing(new Table(vrps), (table) => {
        assert.equal(table.length, row.expected[0].length / 23);
        return [inRow(table.vrps().octets, 23), []];
      }));
  },
  changed(row) {
    for (const vrps of forms(row.first[0], 23))
      for (const at of [0, 2])
        same(row, () => closing(new Table(vrps), (table) => {
          const lists = row.second.map((it) => forms(it, 23)).map((it) => it[at] ?? it[0]);
          return closing(table.withChanges(...lists), (next) => [inRow(next.vrps().octets, 23), []]);
        }));
  },
  differ(row) {
    for (const routes of forms(row.second[0], 22))
      same(row, () => closing(new Table(structs(row.first[0], 23)), (old) =>
        closing(new Table(structs(row.first[1], 23)), (next) =>
          [Array.from(old.revalidate(next, routes), Number), []])));
  },
  changes(row) {
    same(row, () => closing(new Table(structs(row.first[0], 23)), (old) =>
      closing(new Table(structs(row.first[1], 23)), (next) => {
        const { announced, withdrawn } = old.changes(next);
        assert.equal([...announced].length, announced.length);
        return [announced, withdrawn].map((it) => inRow(it.octets, 23));
      })));
  },
  read(row) {
    same(row, () => {
      const found = Pigyelund.readVrps(row.first[0]);
      assert.deepEqual(new Table([...found]).vrps().octets, new Table(found).vrps().octets);
      return [inRow(found.octets, 23), []];
    });
  },
  slurm(row) {
    for (const vrps of forms(row.first[1], 23))
      same(row, () => [inRow(Pigyelund.applySlurm(row.first[0], vrps).octets, 23), []]);
  },
  text(row) {
    const text = decoded(row.first[0]), [kind] = row.numbers;
    if (kind in KINDS && text !== null) same(row, () => pairOf(Resources.fromText(text, KINDS[kind])));
  },
  answer(row) {
    const text = decoded(row.first[0]);
    if (text !== null) same(row, () => [utf8(Pigyelund.answer(text)), []]);
  },
};

Object.assign(GLUE, {
  routes(row) {
    same(row, () => [inRow(Pigyelund.readRoutes(row.first[0]).octets, 22), []]);
  },
  unexpired(row) {
    const [high, low] = row.numbers, time = high * 2 ** 32 + low;
    if (!Number.isSafeInteger(time)) return;
    same(row, () => {
      const { vrps, expired } = Pigyelund.readUnexpiredVrps(row.first[0], time);
      assert.equal(expired, row.number, row.line);
      return [inRow(vrps.octets, 23), []];
    });
  },
  vrp_from_text(row) {
    const text = decoded(row.first[0]);
    if (text !== null) same(row, () => [inRow(new Table([text]).vrps().octets, 23), []]);
  },
  route_from_text(row) {
    const text = decoded(row.first[0]);
    if (text === null) return;
    if (row.status !== 0) return same(row, () => new Table([]).validate(text));
    const vrp = joined([row.expected[0], [row.expected[0][21]]]); // of the same prefix and AS
    assert.equal(new Table([objectOf(vrp)]).covering(text).length, 1, row.line);
  },
  vrp_text() {},
  route_text() {},
});

for (const name of ["union", "intersection", "difference", "symmetric_difference"]) {
  const method = name.replace(/_(.)/, (_, letter) => letter.toUpperCase());
  GLUE[name] = (row) => {
    if (!(row.numbers[0] in ENCODINGS)) return;
    same(row, () => {
      const [first, second] = both(row);
      return pairOf(first[method](second));
    });
  };
}
for (const name of ["contains", "equal"])
  GLUE[name] = (row) => {
    if (!(row.numbers[0] in ENCODINGS)) return;
    same(row, () => {
      const [first, second] = both(row);
      return first[name](second);
    });
  };

function decoded(octets) {
  try {
    return new TextDecoder("utf-8", { fatal: true, ignoreBOM: true }).decode(octets);
  } catch {
    return null;
  }
}

// ---- Without the glue ----

/** Compares a call with outputs, for ample, exact and no capacity. An output has a size of its items. */
function sameRaw(row, name, words, outputs, expected, numbers = () => []) {
  const counts = outputs.map((size, at) => expected[at].length / size);
  for (const capacities of [counts.map((it) => it + AMPLE), counts, counts.map(() => 0)]) {
    const outs = outputs.map((size, at) => raw.room(capacities[at] * size, 0xa5));
    const lengths = outputs.map(() => raw.room(8, 7)), others = numbers().map(() => raw.room(8, 7));
    const buffers = outs.flatMap((at, index) => [at, BigInt(capacities[index])]);
    const status = raw.exports[name](...words(), ...buffers, ...lengths, ...others) >>> 0;
    const fits = counts.every((it, at) => it <= capacities[at]);
    assert.equal(status, fits ? row.status : STATUS.TOO_SMALL, row.line);
    assert.deepEqual(lengths.map((at) => raw.word(at)), counts, row.line);
    assert.deepEqual(others.map((at) => raw.word(at)), numbers(), row.line);
    outs.forEach((at, index) => {
      const [size, written] = [outputs[index], fits ? expected[index] : new Uint8Array(0)];
      const octets = raw.octets(at, capacities[index] * size);
      assert.equal(hex(octets.subarray(0, written.length)), hex(written), row.line);
      assert.ok(octets.subarray(written.length).every((it) => it === 0xa5), row.line);
    });
    raw.end();
  }
}

const isExcess = (row) => row.status >= STATUS.OVERCLAIM && row.status < 2 * STATUS.OVERCLAIM;
const set = (pair) => pair.flatMap((it) => raw.given(it));

/** Compares a call with a set and with overclaimed resources, whose buffers have the order of foreign/c/arrays.c. */
function sameVerified(row, name, words, numbers) {
  const expected = isExcess(row) ? [[], [], ...row.expected] : [...row.expected, [], []];
  for (const capacities of [[AMPLE, AMPLE], row.expected.map((it) => it.length), [0, 0]]) {
    const outs = [...capacities, ...capacities].map((it) => raw.room(it, 0xa5));
    const lengths = outs.map(() => raw.room(8, 7)), others = numbers.map(() => raw.room(8, 7));
    const [as, ip] = capacities.map(BigInt);
    const group = (at) => [outs[at], as, outs[at + 1], ip, lengths[at], lengths[at + 1]];
    const status = raw.exports[name](...words(), ...group(0), ...group(2), ...others) >>> 0;
    const fits = row.expected.every((it, at) => it.length <= capacities[at]);
    assert.equal(status, fits ? row.status : STATUS.TOO_SMALL, row.line);
    assert.deepEqual(lengths.map((at) => raw.word(at)), expected.map((it) => it.length), row.line);
    assert.deepEqual(others.map((at) => raw.word(at)), numbers, row.line);
    outs.forEach((at, index) => {
      const octets = raw.octets(at, capacities[index % 2]), written = fits ? expected[index] : [];
      assert.equal(hex(octets.subarray(0, written.length)), hex(written), row.line);
      assert.ok(octets.subarray(written.length).every((it) => it === 0xa5), row.line);
    });
    raw.end();
  }
}

/** The structs of the certificates of a path. */
function places(row) {
  const view = new DataView(new ArrayBuffer(row.places.length * 40));
  row.places.forEach((words, at) => {
    words.slice(0, 4).forEach((it, index) => view.setBigUint64(40 * at + 8 * index, it, true));
    words.slice(4).forEach((it, index) => view.setUint32(40 * at + 32 + 4 * index, Number(it), true));
  });
  return [raw.given(new Uint8Array(view.buffer))[0], BigInt(row.places.length)];
}

const counted = (octets, size) => [raw.given(structs(octets, size))[0], BigInt(octets.length / size)];

/** The octets of a struct of a range of AS numbers or of a prefix, from those of a row. */
const asRange = (it) => joined([it.slice(0, 4).reverse(), it.slice(4).reverse()]);
const prefix = (family) => (it) =>
  joined([it.subarray(0, -1), new Uint8Array(17 - it.length), [family, it[it.length - 1]]]);

const RAW = {
  verify: (row) => sameVerified(row, "pigy_verify", () => {
    const [encoding, present, mode] = row.numbers;
    const certificate = claim(row.second, present).map((it) => it ?? new Uint8Array(0));
    return [...set(row.first), present, ...set(certificate), encoding, mode];
  }, []),
  path: (row) => sameVerified(row, "pigy_verify_path", () =>
    [...set(row.first), ...raw.given(row.second[0]), ...places(row), row.numbers[0]], [row.number]),
  cover: (row) => {
    const [encoding, family] = row.numbers, size = family === 4 ? 5 : 17;
    sameRaw(row, "pigy_prefixes", () => [...raw.given(row.first[0]), encoding, family], [18],
      [joined(cut(row.expected[0], size).map(prefix(family)))]);
  },
  as_ranges: (row) => sameRaw(row, "pigy_as_ranges", () => [...raw.given(row.first[0]), ...row.numbers], [8],
    [joined(cut(row.expected[0], 8).map(asRange))]),
  ip_ranges: (row) => sameRaw(row, "pigy_ip_ranges", () => [...raw.given(row.first[0]), ...row.numbers], [32],
    [row.expected[0]]),
  origins: (row) => sameRaw(row, "pigy_validate", () =>
    [...counted(row.first[0], 23), ...counted(row.second[0], 22)], [1], [row.expected[0]], () => [row.number]),
  text: (row) => sameRaw(row, "pigy_set_from_text", () => [...raw.given(row.first[0]), ...row.numbers], [1, 1],
    row.expected),
  answer: (row) => sameRaw(row, "pigy_answer", () => raw.given(row.first[0]), [1], [row.expected[0]]),
};
for (const [name, size] of [["vrp", 23], ["route", 22]]) {
  RAW[`${name}_from_text`] = (row) => {
    const at = raw.room(24, 0xa5), status = raw.exports[`pigy_${name}_from_text`](...raw.given(row.first[0]), at) >>> 0;
    const expected = row.status === 0 ? struct(row.expected[0]).subarray(0, size) : new Uint8Array(size);
    assert.deepEqual([status, hex(raw.octets(at, size))], [row.status, hex(expected)], row.line);
    raw.end();
  };
  RAW[`${name}_text`] = (row) => sameRaw(row, `pigy_${name}_text`, () => [raw.given(struct(row.first[0]))[0]], [1],
    [row.expected[0]]);
}

/** Compares a call that reads structs, without their padding, for ample, exact and no capacity. */
function sameStructs(row, name, size, words, numbers) {
  const count = row.expected[0].length / size;
  const bare = (octets) => cut(octets, 24).map((it) => hex(it.subarray(0, size)));
  for (const capacity of [count + 3, count, 0]) {
    const out = raw.room(capacity * 24, 0xa5), places = [count, ...numbers].map(() => raw.room(8, 7));
    const status = raw.exports[name](...raw.given(row.first[0]), ...words(), out, BigInt(capacity), ...places) >>> 0;
    assert.equal(status, count <= capacity ? row.status : STATUS.TOO_SMALL, row.line);
    assert.deepEqual(places.map((at) => raw.word(at)), [count, ...numbers], row.line);
    const found = bare(raw.octets(out, capacity * 24)), written = count <= capacity ? count : 0;
    assert.deepEqual(found.slice(0, written), bare(structs(row.expected[0], size)).slice(0, written), row.line);
    assert.ok(found.slice(written).every((it) => /^(a5)*$/.test(it)), row.line);
    raw.end();
  }
}

RAW.read = (row) => sameStructs(row, "pigy_vrps_read", 23, () => [], [row.number]);
RAW.routes = (row) => sameStructs(row, "pigy_routes_read", 22, () => [], [row.number]);
RAW.unexpired = (row) => {
  const [high, low] = row.numbers.map(BigInt), last = row.status === 0 ? [row.number, 0] : [0, row.number];
  sameStructs(row, "pigy_vrps_read_unexpired", 23, () => [high << 32n | low], last);
};
RAW.slurm = (row) => {
  const isOfVrp = (row.status & STATUS.BAD_ARGUMENT) !== 0, last = isOfVrp ? [row.number, 0] : [0, row.number ?? 0];
  sameStructs(row, "pigy_slurm_apply", 23, () => counted(row.first[1], 23), last);
};
for (const name of ["union", "intersection", "difference"])
  RAW[name] = (row) => sameRaw(row, `pigy_${name}`, () => [...set(row.first), ...set(row.second), row.numbers[0]],
    [1, 1], row.expected);
for (const name of ["contains", "equal"])
  RAW[name] = (row) => {
    const at = raw.room(1, 7);
    const status = raw.exports[`pigy_${name}`](...set(row.first), ...set(row.second), row.numbers[0], at) >>> 0;
    assert.deepEqual([status, raw.octets(at, 1)[0]], [row.status, row.number ?? 0], row.line);
    raw.end();
  };

const rows = (await linesOf("rows.txt")).map(rowOf), texts = await linesOf("texts.txt");
export const counts = { rows: rows.length, texts: texts.length };

for (const call of new Set(rows.map((row) => row.call))) {
  const own = rows.filter((it) => it.call === call);
  test(`${own.length} rows of ${call}`, () => {
    for (const row of own) {
      GLUE[call](row);
      RAW[call]?.(row);
    }
  });
}

test(`the texts of ${texts.length} statuses`, () => {
  for (const line of texts) {
    const [, status, text] = /^(\d+) (.*)$/.exec(line), at = Number(raw.exports.pigy_status_text(Number(status)));
    const octets = raw.octets(at, 200);
    assert.equal(new TextDecoder().decode(octets.subarray(0, octets.indexOf(0))), text);
  }
});

test("the version", () => assert.equal(raw.exports.pigy_version(), STATUS.VERSION_NUMBER));
