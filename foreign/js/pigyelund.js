/* Pigyelund for JavaScript: sets of RPKI resources, and route origin validation. README.md is the guide.
 *
 * This classic script sets `globalThis.Pigyelund`. index.mjs exports its names, and so does the script as a CommonJS
 * module. `Pigyelund.load` makes an instance of the WebAssembly module, whose code comes from a proved library. The
 * script itself is tested, and is not proved: it copies arguments into the memory of the module and results out of it.
 * The module reads all texts and all DER.
 *
 * In the module an address and a length have 64 bits. They are numbers here, and BigInt only in the arguments of a
 * call. The memory may grow in each call, so each view of it is made for one use. */
globalThis.Pigyelund = (function make() {
  "use strict";

  // made by foreign/bindings.py: begin
  const STATUS = { OK: 0x0, TOO_SMALL: 0x100, MEMORY: 0x200, BAD_ARGUMENT: 0x400, BAD_ENCODING: 0x401, BAD_MODE: 0x402,
    BAD_PRESENT: 0x403, BAD_FAMILY: 0x404, BAD_KIND: 0x405, BAD_PREFIX: 0x406, BAD_MAX_LEN: 0x407, OUTSIDE: 0x408,
    NO_HANDLE: 0x409, BAD_AS: 0x800, BAD_IP: 0x1000, INHERITED: 0x2000, ABSENT: 0x4000, OVERCLAIM: 0x8000, OVERCLAIM_V4:
    0x8004, OVERCLAIM_AS: 0x8005, OVERCLAIM_V6: 0x8006, BAD_CHANGE: 0x10000, UNKNOWN_WITHDRAWAL: 0x10006,
    DUPLICATE_ANNOUNCEMENT: 0x10007, BAD_LINE: 0x20000, BAD_ITEM: 0x40000, BAD_FILE: 0x80000, BAD_TEXT: 0x100000,
    BAD_QUERY: 0x200000, BAD_SLURM: 0x400000, BAD_ROUTE: 0x800000, SECOND: 0x1000000, BAD_SLURM_ITEM: 0x2000000 };
  const NUMBER = { HAS_AS: 1, HAS_IP: 2, HAS_BOTH: 3, IPV4: 4, IPV6: 6, ASN: 5, LENIENT: 16, STRICT: 17, REFUSE: 32,
    TRIM: 33, VALID: 0, NOT_FOUND: 1, INVALID: 2, NO_VALIDITY: 0xff, INVALID_AS: 1, INVALID_LENGTH: 2, OTHER_AS: 1,
    TOO_LONG: 2 };
  // made by foreign/bindings.py: end

  const STRUCT = 24; // octets of a VRP and of a route
  const MODES = { refuse: NUMBER.REFUSE, trim: NUMBER.TRIM };
  const ENCODINGS = { strict: NUMBER.STRICT, lenient: NUMBER.LENIENT };
  const FAMILIES = { ipv4: NUMBER.IPV4, ipv6: NUMBER.IPV6 };
  const KINDS = { asn: NUMBER.ASN, ...FAMILIES };
  const NEEDS =
    "Pigyelund needs an engine with WebAssembly, BigInt and bulk memory: Chrome 91, Firefox 90, Safari 15, " +
    "Node 16.9, or a later version";
  const CLOSED_BY_TRAP = "the module stopped by a trap, and its memory is not used any more; call Pigyelund.load again";

  let current = null; // the instance that load made last

  /** The error of each call that fails. `code` is the name of a status of pigyelund.h, or a name of this file. */
  class PigyelundError extends Error {
    constructor(code, message, more = {}) {
      super(message);
      this.name = "Pigyelund.Error";
      this.code = code;
      Object.assign(this, more);
    }
  }

  const wrong = (message) => new PigyelundError("ARGUMENT", message);

  /** Runs a function that reads an item of a list. An error of this file gets the place of the item. */
  function placed(place, run) {
    try {
      return run();
    } catch (reason) {
      throw reason instanceof PigyelundError ? Object.assign(reason, place) : reason;
    }
  }

  /** Refuses an object that has a member of another name, which a call would ignore. */
  function onlyMembers(item, names, what) {
    const other = Object.keys(item).find((it) => !names.includes(it));
    if (other === undefined) return;
    throw wrong(`${what}: unknown member ${shown(other)}; the members are ${names.join(", ")}`);
  }

  /** Returns the number for a word, such as "strict". */
  function numberFor(words, word, what) {
    if (typeof word === "string" && Object.keys(words).includes(word)) return words[word];
    throw wrong(`${what}: ${shown(word)} is none of ${Object.keys(words).join(", ")}`);
  }

  /** Returns a short text of any value, which calls no code of the value. */
  function shown(value) {
    if (typeof value === "string") return JSON.stringify(value.length > 60 ? `${value.slice(0, 60)}..` : value);
    const isPlain = value === null || !["object", "function", "symbol"].includes(typeof value);
    return isPlain ? String(value) : typeof value === "object" ? "an object" : `a ${typeof value}`;
  }

  /** Returns an AS number or a length. It has to be an integer from 0 to a greatest one. */
  function integer(value, greatest, what) {
    if (typeof value === "number" && Number.isInteger(value) && value >= 0 && value <= greatest) return value;
    throw wrong(`${what}: ${shown(value)} is no integer from 0 to ${greatest}`);
  }

  // ---- Octets of the caller ----

  const getter = (of, name) => Object.getOwnPropertyDescriptor(of, name).get;
  const arrays = Object.getPrototypeOf(Uint8Array.prototype);
  const GETTERS = [arrays, DataView.prototype].map((of) =>
    ["buffer", "byteOffset", "byteLength"].map((name) => getter(of, name)));
  const tagOf = getter(arrays, Symbol.toStringTag); // of a DataView it returns undefined

  /** Returns whether a value is an ArrayBuffer, or one that threads share. */
  function isBuffer(value) {
    const tag = Object.prototype.toString.call(value);
    return value instanceof ArrayBuffer || tag === "[object ArrayBuffer]" || tag === "[object SharedArrayBuffer]";
  }

  /** Returns whether a value has octets. */
  const hasOctets = (value) => ArrayBuffer.isView(value) || isBuffer(value);

  /** Returns a view of the octets of a buffer, of a typed array of octets or of a DataView. */
  function octetsOf(value, what) {
    const tag = ArrayBuffer.isView(value) ? tagOf.call(value) : undefined;
    if (tag !== undefined && !tag.includes("8")) throw wrong(`${what}: the elements of a ${tag} are no octets`);
    try {
      if (isBuffer(value)) return new Uint8Array(value, 0, new Uint8Array(value).byteLength); // it may grow later
      if (ArrayBuffer.isView(value)) {
        const getters = GETTERS[tag === undefined ? 1 : 0];
        return new Uint8Array(...getters.map((get) => get.call(value)));
      }
    } catch (reason) {
      throw wrong(`${what}: the buffer is detached, or its view is outside of it`);
    }
    throw wrong(`${what}: ${shown(value)} has no octets; a Uint8Array or an ArrayBuffer is expected`);
  }

  /** Returns the octets of a text in UTF-8. */
  function encoded(text, what) {
    if (typeof text !== "string") throw wrong(`${what}: ${shown(text)} is no string`);
    return new TextEncoder().encode(text);
  }

  // ---- The module ----

  /** An instance of the module. */
  class Instance {
    constructor(exports) {
      this.exports = exports;
      this.hasTrapped = false;
    }

    /** Makes a call of the module. An exception from the module ends the instance. */
    call(name, ...words) {
      if (this.hasTrapped) throw new PigyelundError("TRAPPED", CLOSED_BY_TRAP);
      const run = this.exports[name];
      if (run === undefined) throw new PigyelundError("NOT_LOADED", `the module is of another version: no ${name}`);
      try {
        return run(...words);
      } catch (reason) {
        this.hasTrapped = true;
        throw new PigyelundError("TRAPPED", `${CLOSED_BY_TRAP} (${reason})`);
      }
    }

    /** Returns a view of octets of the memory, for one use. */
    octets(at, length) {
      return new Uint8Array(this.exports.memory.buffer, at, length);
    }

    /** Returns an address of the memory that is stored at an address. */
    word(at) {
      return Number(new DataView(this.exports.memory.buffer).getBigUint64(at, true));
    }

    /** Returns the text that ends with NUL at an address. */
    text(at) {
      const rest = this.octets(at, Math.min(4096, this.exports.memory.buffer.byteLength - at));
      return new TextDecoder().decode(rest.slice(0, rest.indexOf(0)));
    }
  }

  /** Returns the instance that load made. */
  function loaded() {
    if (current === null) throw new PigyelundError("NOT_LOADED", "call await Pigyelund.load() first");
    return current;
  }

  /** The memory that one call takes from the module, and gives back at its end. */
  class Frame {
    constructor(instance) {
      this.instance = instance;
      this.taken = [];
    }

    /** Returns the address of so many octets. A call never gets NULL. */
    room(count) {
      const at = Number(this.instance.call("malloc", BigInt(count)));
      if (at === 0) throw errorFor(this.instance, STATUS.MEMORY);
      this.taken.push(at);
      return at;
    }

    /** Returns the address of a word of 64 bits, which a call writes. */
    word() {
      return this.room(8);
    }

    /** Returns the address and the length of octets, as two arguments of a call. */
    given(octets) {
      const at = this.room(octets.byteLength);
      this.instance.octets(at, octets.byteLength).set(octets);
      return [BigInt(at), BigInt(octets.byteLength)];
    }

    end() {
      if (!this.instance.hasTrapped) for (const at of this.taken) this.instance.call("free", BigInt(at));
      this.taken = [];
    }
  }

  /** Runs a function with a frame. */
  function framed(instance, run) {
    const frame = new Frame(instance);
    try {
      return run(frame);
    } finally {
      frame.end();
    }
  }

  const NAMES = new Map(Object.entries(STATUS).map(([name, number]) => [number, name]));

  const LISTS = ["prefixFilters", "bgpsecFilters", "prefixAssertions", "bgpsecAssertions"]; // of a SLURM file

  /** Returns the error for a status of the module. */
  function errorFor(instance, status, more = {}) {
    status >>>= 0;
    const exact = NAMES.get(status & ~STATUS.SECOND), kind = NAMES.get(status & ~(0xff | STATUS.SECOND));
    const text = instance.hasTrapped ? exact : instance.text(Number(instance.call("pigy_status_text", status)));
    const place = Object.entries(more).filter(([, value]) => typeof value === "number")
      .map(([name, value]) => `${name} ${value}`).join(", ");
    const fault = exact === undefined ? { fault: status & 0xff } : {};
    const list = kind === "BAD_SLURM_ITEM" ? { list: LISTS[fault.fault >> 6] } : {};
    const isSecond = (status & STATUS.SECOND) !== 0 || status === STATUS.UNKNOWN_WITHDRAWAL ? { isSecond: true } : {};
    return new PigyelundError(exact ?? kind ?? "UNKNOWN", place ? `${text} (${place})` : text,
      { status, ...fault, ...list, ...isSecond, ...more });
  }

  /** Runs a call that lists items: first with room for so many, and then with the room that it needs. Returns the
   * octets of the items. */
  function listed(instance, size, room, run, more = () => ({})) {
    for (let count = room; ; ) {
      const found = framed(instance, (frame) => {
        const out = frame.room(count * size), length = frame.word();
        const status = run(frame, BigInt(out), BigInt(count), BigInt(length));
        const needed = instance.word(length);
        if (status === STATUS.OK) return instance.octets(out, needed * size).slice();
        if (status !== STATUS.TOO_SMALL) throw errorFor(instance, status, more());
        return needed;
      });
      if (typeof found !== "number") return found;
      count = found;
    }
  }

  // ---- Handles ----

  /** Frees the object of the module that a collected object had. */
  const registry = typeof FinalizationRegistry === "undefined" ? null : new FinalizationRegistry((held) => free(held));

  function free(held) {
    const at = held.at;
    held.at = 0;
    if (at !== 0 && !held.instance.hasTrapped) held.instance.call(held.free, BigInt(at));
  }

  /** An object of the module: a set or a table. */
  class Handle {
    #held;

    constructor(instance, at, name) {
      this.#held = { instance, at, free: name };
      registry?.register(this, this.#held, this.#held);
    }

    /** The instance and the address of an object of a class that is not closed. */
    static of(value, kind, what) {
      if (!(value instanceof kind) || !(#held in value)) throw wrong(`${what}: ${shown(value)} is no ${kind.name}`);
      const { instance, at } = value.#held;
      if (instance.hasTrapped) throw new PigyelundError("TRAPPED", CLOSED_BY_TRAP);
      if (at === 0) throw new PigyelundError("CLOSED", `${what}: the ${kind.name} is closed`);
      return { instance, at: BigInt(at) };
    }

    /** Frees the object. A second call does nothing. */
    close() {
      registry?.unregister(this.#held);
      free(this.#held);
    }

    /** Returns what console.log of Node prints. */
    [Symbol.for("nodejs.util.inspect.custom")]() {
      const isOpen = this.#held.at !== 0 && !this.#held.instance.hasTrapped;
      const text = isOpen ? `${this}` : "closed";
      return `${this.constructor.name} { ${text.length > 200 ? `${text.slice(0, 200)}..` : text} }`;
    }
  }

  /** The two operands of a call, which are of one instance. */
  function both(a, b, kind, what) {
    const first = Handle.of(a, kind, "this"), second = Handle.of(b, kind, what);
    if (first.instance !== second.instance) throw wrong(`${what}: it is of another call of Pigyelund.load`);
    return [first.instance, first.at, second.at];
  }

  // ---- Addresses, prefixes, VRPs and routes ----

  /** Returns the text of an address of 4 or 16 octets (RFC 5952). */
  function addressText(given) {
    const octets = octetsOf(given, "octets");
    if (octets.length === 4 || octets.length === 16) return textOf(octets);
    throw wrong(`octets: ${octets.length} octets are no address; an address has 4 or 16`);
  }

  /** Returns the text of an address, whose octets have one of these lengths. */
  function textOf(octets) {
    if (octets.length === 4) return octets.join(".");
    const words = Array.from({ length: 8 }, (_, at) => ((octets[2 * at] << 8) | octets[2 * at + 1]).toString(16));
    const isMapped = words.slice(0, 5).every((it) => it === "0") && words[5] === "ffff";
    if (isMapped) return `::ffff:${octets.slice(12).join(".")}`;
    let first = 0, most = 1; // the first of the longest runs of at least two words that are 0
    for (let at = 0, count = 0; at < 8; at += 1) {
      count = words[at] === "0" ? count + 1 : 0;
      if (count > most) [first, most] = [at - count + 1, count];
    }
    if (most === 1) return words.join(":");
    return `${words.slice(0, first).join(":")}::${words.slice(first + most).join(":")}`;
  }

  /** Returns the text of the prefix of a struct. */
  function prefixText(octets, family, length) {
    return `${textOf(octets.slice(0, family === NUMBER.IPV4 ? 4 : 16))}/${length}`;
  }

  const asnAt = (octets) => new DataView(octets.buffer, octets.byteOffset).getUint32(16, true);

  function vrpOf(octets) {
    return { prefix: prefixText(octets, octets[20], octets[21]), maxLength: octets[22], asn: asnAt(octets) };
  }

  function routeOf(octets) {
    return { prefix: prefixText(octets, octets[20], octets[21]), asn: asnAt(octets) };
  }

  /** A list of VRPs or of routes in one array of structs, in the layout of pigyelund.h. */
  class Structs {
    #item;
    #size;

    constructor(octets, item) {
      this.octets = octets;
      this.#item = item;
      this.#size = octets.byteLength;
    }

    /** The number of items. A list whose buffer was transferred has none, and is refused. */
    get length() {
      if (this.octets.byteLength === this.#size) return this.#size / STRUCT;
      throw wrong("this: the buffer of the list is detached");
    }

    /** Returns an item, or undefined if no item has this index. -1 is the index of the last item. */
    at(index) {
      const { length } = this, isBack = typeof index === "number" && index < 0;
      const from = isBack ? length - integer(-index, Number.MAX_SAFE_INTEGER, "index") :
        integer(index, Number.MAX_SAFE_INTEGER, "index");
      if (from < 0 || from >= length) return undefined;
      return this.#item(this.octets.subarray(from * STRUCT, (from + 1) * STRUCT));
    }

    /** Returns the list of the items whose octet is not 0. */
    subset(chosen) {
      const { length, octets } = this, marks = octetsOf(chosen, "chosen");
      if (marks.length !== length) throw wrong(`chosen: ${marks.length} octets for ${length} items`);
      const found = new Uint8Array(marks.reduce((sum, it) => sum + (it ? STRUCT : 0), 0));
      for (let at = 0, to = 0; at < length; at += 1)
        if (marks[at]) found.set(octets.subarray(at * STRUCT, (at + 1) * STRUCT), to), to += STRUCT;
      return new Structs(found, this.#item);
    }

    *[Symbol.iterator]() {
      for (let at = 0; at < this.length; at += 1) yield this.at(at);
    }
  }

  /** Returns a word of the text of a VRP or of a route. It has only these characters, so it stays one word. */
  function wordOf(text, characters, what) {
    if (typeof text === "string" && characters.test(text)) return text;
    throw wrong(`${what}: ${shown(text)} is invalid`);
  }

  /** Returns the text of an object with a prefix, an AS number and, for a VRP, perhaps a maximum length. */
  function objectText(item, { members }, what) {
    if (item === null || typeof item !== "object") throw wrong(`${what}: ${shown(item)} is no text and no object`);
    onlyMembers(item, members, what);
    const { prefix, maxLength, asn } = item, isNumber = typeof asn === "number";
    const isLong = members.includes("maxLength") && maxLength !== undefined && maxLength !== null;
    const most = isLong ? `-${integer(maxLength, 255, `${what}.maxLength`)}` : "";
    const number = isNumber ? integer(asn, 0xffffffff, `${what}.asn`) : wordOf(asn, /^[ASas0-9]+$/, `${what}.asn`);
    return `${wordOf(prefix, /^[0-9A-Fa-f:./]+$/, `${what}.prefix`)}${most} ${number}`;
  }

  // the call that reads a text, the members of an object, and what an error of an item has besides its index
  const VRPS = { call: "pigy_vrp_from_text", members: ["prefix", "maxLength", "asn"], more: {} };
  const WITHDRAWN = { ...VRPS, more: { isSecond: true } };
  const PREFIX = { call: "pigy_route_from_text", members: ["prefix", "asn"], more: {} };
  const ROUTES = { ...PREFIX, more: { isSecond: true } };

  const isOne = (value) => typeof value === "string" || (value !== null && typeof value === "object" &&
    !hasOctets(value) && !(value instanceof Structs) && typeof value[Symbol.iterator] !== "function");

  /** Returns structs for a buffer of structs, or for texts and objects, each of which the module reads as a text. */
  function structsOf(instance, given, kind, what) {
    if (given instanceof Structs) given = given.octets;
    if (hasOctets(given)) {
      const octets = octetsOf(given, what);
      if (octets.byteLength % STRUCT === 0) return octets;
      throw wrong(`${what}: ${octets.byteLength} octets are no structs of ${STRUCT} octets`);
    }
    if (isOne(given) || typeof given?.[Symbol.iterator] !== "function")
      throw wrong(`${what}: ${shown(given)} is neither a list nor a buffer`);
    const texts = [];
    for (const item of given) {
      const index = texts.length, text = () => objectText(item, kind, `${what}[${index}]`);
      texts.push(typeof item === "string" ? item : placed({ index, ...kind.more }, text));
    }
    return framed(instance, (frame) => textStructs(frame, texts, kind));
  }

  /** Returns the structs of texts, of which each is read by a call. */
  function textStructs(frame, texts, { call, more }) {
    const { instance } = frame, found = new Uint8Array(texts.length * STRUCT), encoder = new TextEncoder();
    let room = 0, at = 0;
    const out = frame.room(STRUCT);
    texts.forEach((text, index) => {
      if (3 * text.length > room) at = frame.room(room = Math.max(256, 6 * text.length));
      const { written } = encoder.encodeInto(text, instance.octets(at, room));
      const status = instance.call(call, BigInt(at), BigInt(written), BigInt(out));
      if (status !== STATUS.OK) throw errorFor(instance, status, { index, ...more });
      found.set(instance.octets(out, STRUCT), index * STRUCT);
    });
    return found;
  }

  /** Reads a file into structs, by a call that stores further numbers after the length. Returns the structs, and all
   * numbers but the last, which is a line. */
  function readStructs(name, file, itemOf, words, count) {
    const instance = loaded(), octets = octetsOf(file, "file");
    let numbers = [];
    const placeOf = () => (numbers[count - 1] === 0 ? {} : { line: numbers[count - 1] });
    const room = Math.ceil(octets.byteLength / STRUCT) + 1;
    const found = listed(instance, STRUCT, room, (frame, out, capacity, length) => {
      const places = Array.from({ length: count }, () => frame.word());
      const given = [...frame.given(octets), ...words, out, capacity, length, ...places.map(BigInt)];
      const status = instance.call(name, ...given);
      numbers = places.map((at) => instance.word(at));
      return status;
    }, placeOf);
    return [new Structs(found, itemOf), ...numbers.slice(0, -1)];
  }

  // ---- Sets ----

  const FREE_SET = "pigy_resources_free";

  /** Returns the octets of an extension, and none for null. */
  function derOctets(der, what) {
    if (der === undefined) throw wrong(`${what}: undefined; pass null for a certificate without this extension`);
    return der === null ? new Uint8Array(0) : octetsOf(der, what);
  }

  /** Returns the two arguments of each extension, which may be absent, and the bit mask of those that are present. */
  function extensions(frame, asDer, ipDer) {
    const octets = [derOctets(asDer, "asDer"), derOctets(ipDer, "ipDer")];
    const present = (asDer === null ? 0 : NUMBER.HAS_AS) | (ipDer === null ? 0 : NUMBER.HAS_IP);
    return { octets, present, words: octets.flatMap((it) => frame.given(it)) };
  }

  /** A set of AS numbers, IPv4 addresses and IPv6 addresses. It never changes. */
  class Resources extends Handle {
    constructor(instance, at) {
      if (!(instance instanceof Instance)) throw wrong("use Resources.read or Resources.fromText");
      super(instance, at, FREE_SET);
    }

    /** Makes a call that returns a set, and returns the set. */
    static #made(instance, run) {
      return framed(instance, (frame) => {
        const out = frame.word(), status = run(frame, BigInt(out));
        if (status !== STATUS.OK) throw errorFor(instance, status);
        return new Resources(instance, instance.word(out));
      });
    }

    /** Makes a call that verifies, and returns the set. The error has what `placeOf` makes of the number of verified
     * certificates, and the overclaimed resources. */
    static #verified(instance, run, placeOf) {
      return framed(instance, (frame) => {
        const outs = [frame.word(), frame.word(), frame.word()];
        const status = run(frame, ...outs.map(BigInt)), [made, excess, verified] = outs.map((at) => instance.word(at));
        if (status === STATUS.OK) return new Resources(instance, made);
        const more = status === STATUS.MEMORY ? {} : placeOf(verified);
        throw errorFor(instance, status, excess === 0 ? more : { ...more, excess: new Resources(instance, excess) });
      });
    }

    static read(asDer, ipDer, encoding = "strict") {
      const instance = loaded(), number = numberFor(ENCODINGS, encoding, "encoding");
      return Resources.#made(instance, (frame, out) => {
        const { octets, present, words } = extensions(frame, asDer, ipDer);
        if (present & NUMBER.HAS_AS && octets[0].byteLength === 0) return STATUS.BAD_AS + 1;
        if (present & NUMBER.HAS_IP && octets[1].byteLength === 0) return STATUS.BAD_IP + 1;
        return instance.call("pigy_resources_read", ...words, number, out);
      });
    }

    static fromText(text, kind) {
      const instance = loaded(), number = numberFor(KINDS, kind, "kind"), octets = encoded(text, "text");
      return Resources.#made(instance, (frame, out) =>
        instance.call("pigy_resources_from_text", ...frame.given(octets), number, out));
    }

    verify(asDer, ipDer, encoding = "strict", mode = "refuse") {
      const { instance, at } = Handle.of(this, Resources, "this");
      const numbers = [numberFor(ENCODINGS, encoding, "encoding"), numberFor(MODES, mode, "mode")];
      return Resources.#verified(instance, (frame, out, excess) => {
        const { present, words } = extensions(frame, asDer, ipDer);
        return instance.call("pigy_resources_verify", at, ...words, present, ...numbers, out, excess);
      }, () => ({}));
    }

    verifyPath(certificates, encoding = "strict") {
      const { instance, at } = Handle.of(this, Resources, "this");
      const number = numberFor(ENCODINGS, encoding, "encoding"), { run, places } = concatenated(certificates);
      return Resources.#verified(instance, (frame, out, excess, verified) =>
        instance.call("pigy_resources_verify_path", at, ...frame.given(run), frame.given(places)[0],
          BigInt(places.byteLength / CERTIFICATE), number, out, excess, verified), (verified) => ({ verified }));
    }

    static #operation(name, a, b) {
      const [instance, first, second] = both(a, b, Resources, "other");
      return Resources.#made(instance, (frame, out) => instance.call(name, first, second, out));
    }

    union(other) {
      return Resources.#operation("pigy_resources_union", this, other);
    }

    intersection(other) {
      return Resources.#operation("pigy_resources_intersection", this, other);
    }

    difference(other) {
      return Resources.#operation("pigy_resources_difference", this, other);
    }

    symmetricDifference(other) {
      return Resources.#operation("pigy_resources_symmetric_difference", this, other);
    }

    /** Makes a call with an answer of one octet. */
    static #answer(instance, run) {
      return framed(instance, (frame) => {
        const at = frame.room(1), status = run(frame, BigInt(at));
        if (status !== STATUS.OK) throw errorFor(instance, status);
        return instance.octets(at, 1)[0] === 1;
      });
    }

    contains(other) {
      const [instance, first, second] = both(this, other, Resources, "other");
      return Resources.#answer(instance, (frame, out) => instance.call("pigy_resources_contains", first, second, out));
    }

    equal(other) {
      const [instance, first, second] = both(this, other, Resources, "other");
      return Resources.#answer(instance, (frame, out) => instance.call("pigy_resources_equal", first, second, out));
    }

    containsAsn(asn) {
      const { instance, at } = Handle.of(this, Resources, "this"), number = integer(asn, 0xffffffff, "asn");
      return Resources.#answer(instance, (frame, out) =>
        instance.call("pigy_resources_contains_asn", at, number, out));
    }

    containsPrefix(prefix) {
      const { instance, at } = Handle.of(this, Resources, "this");
      const route = structsOf(instance, [{ prefix, asn: 0 }], PREFIX, "prefix");
      const struct = new Uint8Array([...route.subarray(0, 16), route[20], route[21]]);
      return Resources.#answer(instance, (frame, out) =>
        instance.call("pigy_resources_contains_prefix", at, frame.given(struct)[0], out));
    }

    #list(name, size, words) {
      const { instance, at } = Handle.of(this, Resources, "this");
      return listed(instance, size, 64, (frame, out, capacity, length) =>
        instance.call(name, at, ...words, out, capacity, length));
    }

    prefixes(family) {
      const number = numberFor(FAMILIES, family, "family");
      const octets = this.#list("pigy_resources_prefixes", 18, [number]);
      return parts(octets, 18).map((it) => prefixText(it, it[16], it[17]));
    }

    asRanges() {
      const view = new DataView(this.#list("pigy_resources_as_ranges", 8, []).buffer);
      return Array.from({ length: view.byteLength / 8 }, (_, at) => ({
        min: view.getUint32(8 * at, true), max: view.getUint32(8 * at + 4, true),
      }));
    }

    ipRanges(family) {
      const number = numberFor(FAMILIES, family, "family"), length = family === "ipv4" ? 4 : 16;
      return parts(this.#list("pigy_resources_ip_ranges", 32, [number]), 32).map((it) => {
        const [minOctets, maxOctets] = [it.slice(0, length), it.slice(16, 16 + length)];
        return { min: textOf(minOctets), max: textOf(maxOctets), minOctets, maxOctets };
      });
    }

    /** Returns the DER of both extensions, null for one without resources. */
    der() {
      const { instance, at } = Handle.of(this, Resources, "this");
      for (let rooms = [256, 256]; ; ) {
        const found = framed(instance, (frame) => {
          const outs = rooms.map((it) => frame.room(it)), lengths = [frame.word(), frame.word()];
          const words = outs.flatMap((it, index) => [BigInt(it), BigInt(rooms[index])]);
          const status = instance.call("pigy_resources_der", at, ...words, ...lengths.map(BigInt));
          const needed = lengths.map((it) => instance.word(it));
          if (status === STATUS.OK) return needed.map((it, index) => instance.octets(outs[index], it).slice());
          if (status !== STATUS.TOO_SMALL) throw errorFor(instance, status);
          rooms = needed;
          return null;
        });
        if (found) return { as: found[0].length ? found[0] : null, ip: found[1].length ? found[1] : null };
      }
    }

    text(kind) {
      const number = numberFor(KINDS, kind, "kind");
      return new TextDecoder().decode(this.#list("pigy_resources_text", 1, [number]));
    }

    /** Returns the texts of the three kinds as one list. */
    toString() {
      return Object.keys(KINDS).map((kind) => this.text(kind)).filter((it) => it).join(", ");
    }
  }

  const parts = (octets, size) =>
    Array.from({ length: octets.byteLength / size }, (_, at) => octets.slice(at * size, (at + 1) * size));

  const CERTIFICATE = 40; // octets of the struct of a certificate

  /** Returns the DER of all certificates in one array, and the struct of each certificate. */
  function concatenated(certificates) {
    if (typeof certificates?.[Symbol.iterator] !== "function" || typeof certificates === "string")
      throw wrong(`certificates: ${shown(certificates)} is no list`);
    const pieces = [], structs = [];
    let total = 0;
    const added = (der, what) => {
      const octets = derOctets(der, what).slice();
      pieces.push(octets);
      total += octets.byteLength;
      return octets.byteLength;
    };
    const structOf = (it, what) => {
      const isObject = it !== null && typeof it === "object" && !hasOctets(it);
      if (!isObject) throw wrong(`${what}: ${shown(it)} is no certificate`);
      onlyMembers(it, ["as", "ip", "mode"], what);
      const [as, ip] = ["as", "ip"].map((name) => (name in it ? it[name] : null)), { mode = "refuse" } = it;
      const start = total;
      const lengths = [added(as, `${what}.as`), added(ip, `${what}.ip`)];
      const present = (as === null ? 0 : NUMBER.HAS_AS) | (ip === null ? 0 : NUMBER.HAS_IP);
      return [start, lengths[0], start + lengths[0], lengths[1], present, numberFor(MODES, mode, `${what}.mode`)];
    };
    for (const it of certificates) {
      const index = structs.length;
      structs.push(placed({ index }, () => structOf(it, `certificates[${index}]`)));
    }
    const run = new Uint8Array(total), places = new DataView(new ArrayBuffer(structs.length * CERTIFICATE));
    let from = 0;
    for (const it of pieces) run.set(it, from), from += it.byteLength;
    structs.forEach((words, at) => {
      words.slice(0, 4).forEach((it, index) => places.setBigUint64(at * CERTIFICATE + 8 * index, BigInt(it), true));
      words.slice(4).forEach((it, index) => places.setUint32(at * CERTIFICATE + 32 + 4 * index, it, true));
    });
    return { run, places: new Uint8Array(places.buffer) };
  }

  // ---- Tables ----

  const WORDS = ["valid", "not-found", "invalid"];

  /** Returns the word of a validity and of its reason, as the program origins prints it. */
  function validityText(validity, reason) {
    if (validity !== NUMBER.INVALID) return WORDS[validity];
    return reason === NUMBER.INVALID_AS ? "invalid-as" : "invalid-length";
  }

  /** Validates routes by a call whose first arguments are those of `wordsOf`. Returns two arrays of numbers for a
   * buffer, a word for one route, and a list of words for a list. */
  function validated(instance, routes, name, wordsOf) {
    const isSingle = isOne(routes), structs = structsOf(instance, isSingle ? [routes] : routes, ROUTES, "routes");
    const count = structs.byteLength / STRUCT;
    const found = framed(instance, (frame) => {
      const [out, reasons, length, index] = [frame.room(count), frame.room(count), frame.word(), frame.word()];
      const outs = [out, count, reasons, count, length, index].map(BigInt);
      const status = instance.call(name, ...wordsOf(frame), ...counted(frame, structs), ...outs);
      if (status !== STATUS.OK) throw errorFor(instance, status, { index: instance.word(index) });
      return { validities: instance.octets(out, count).slice(), reasons: instance.octets(reasons, count).slice() };
    });
    if (hasOctets(routes) || routes instanceof Structs) return found;
    const words = Array.from(found.validities, (it, index) => validityText(it, found.reasons[index]));
    return isSingle ? words[0] : words;
  }

  /** A table of VRPs (RFC 6811). It never changes. */
  class Table extends Handle {
    constructor(vrps) {
      const made = vrps instanceof Made ? vrps : Table.#new(loaded(), vrps);
      super(made.instance, made.at, "pigy_table_free");
    }

    static #new(instance, vrps) {
      const structs = structsOf(instance, vrps, VRPS, "vrps");
      return Table.#made(instance, (frame, out, index) =>
        instance.call("pigy_table_new", ...counted(frame, structs), out, index));
    }

    static #made(instance, run) {
      return framed(instance, (frame) => {
        const [out, index] = [frame.word(), frame.word()], status = run(frame, BigInt(out), BigInt(index));
        if (status === STATUS.OK) return new Made(instance, instance.word(out));
        throw errorFor(instance, status, status === STATUS.MEMORY ? {} : { index: instance.word(index) });
      });
    }

    /** The number of VRPs. */
    get length() {
      const { instance, at } = Handle.of(this, Table, "this");
      return framed(instance, (frame) => {
        const length = frame.word();
        instance.call("pigy_table_len", at, BigInt(length));
        return instance.word(length);
      });
    }

    validate(routes) {
      const { instance, at } = Handle.of(this, Table, "this");
      return validated(instance, routes, "pigy_table_validate_routes", () => [at]);
    }

    /** Returns for each route whether its validity differs in the next table. No reason is compared. */
    revalidate(next, routes) {
      const [instance, first, second] = both(this, next, Table, "next");
      const structs = structsOf(instance, routes, ROUTES, "routes"), count = structs.byteLength / STRUCT;
      const found = framed(instance, (frame) => {
        const [out, length, index] = [frame.room(count), frame.word(), frame.word()];
        const outs = [out, count, length, index].map(BigInt);
        const status = instance.call("pigy_table_revalidate", first, second, ...counted(frame, structs), ...outs);
        if (status !== STATUS.OK) throw errorFor(instance, status, { index: instance.word(index) });
        return instance.octets(out, count).slice();
      });
      return hasOctets(routes) || routes instanceof Structs ? found : Array.from(found, (it) => it === 1);
    }

    withChanges(announced, withdrawn) {
      const { instance, at } = Handle.of(this, Table, "this");
      const lists = [structsOf(instance, announced, VRPS, "announced"),
        structsOf(instance, withdrawn, WITHDRAWN, "withdrawn")];
      return new Table(Table.#made(instance, (frame, out, index) =>
        instance.call("pigy_table_with_changes", at, ...lists.flatMap((it) => counted(frame, it)), out, index)));
    }

    /** Returns the VRPs that only the next table has, and those that only this one has. */
    changes(next) {
      const [instance, first, second] = both(this, next, Table, "next");
      for (let rooms = [64, 64]; ; ) {
        const found = framed(instance, (frame) => {
          const outs = rooms.map((it) => frame.room(it * STRUCT)), lengths = [frame.word(), frame.word()];
          const words = outs.flatMap((it, index) => [it, rooms[index], lengths[index]].map(BigInt));
          const status = instance.call("pigy_table_changes", first, second, ...words);
          const needed = lengths.map((it) => instance.word(it));
          if (status === STATUS.OK)
            return needed.map((it, index) => new Structs(instance.octets(outs[index], it * STRUCT).slice(), vrpOf));
          if (status !== STATUS.TOO_SMALL) throw errorFor(instance, status);
          rooms = needed;
          return null;
        });
        if (found) return { announced: found[0], withdrawn: found[1] };
      }
    }

    /** Returns the VRPs that cover a route, each with the reasons why it does not match. */
    covering(route) {
      const { instance, at } = Handle.of(this, Table, "this");
      const struct = structsOf(instance, hasOctets(route) ? route : [route], ROUTES, "route");
      if (struct.byteLength !== STRUCT) throw wrong("route: one route is expected");
      const octets = listed(instance, 28, 64, (frame, out, capacity, length) =>
        instance.call("pigy_table_covering", at, frame.given(struct)[0], out, capacity, length));
      return parts(octets, 28).map((it) => ({
        vrp: vrpOf(it), otherAs: (it[24] & NUMBER.OTHER_AS) !== 0, tooLong: (it[24] & NUMBER.TOO_LONG) !== 0,
      }));
    }

    /** Returns all VRPs of the table. */
    vrps() {
      const { instance, at } = Handle.of(this, Table, "this"), count = this.length;
      return new Structs(listed(instance, STRUCT, count, (frame, out, capacity, length) =>
        instance.call("pigy_table_vrps", at, out, capacity, length)), vrpOf);
    }

    toString() {
      const { length } = this;
      return length === 1 ? "1 VRP" : `${length} VRPs`;
    }
  }

  /** The handle of a table that a call made. */
  class Made {
    constructor(instance, at) {
      this.instance = instance;
      this.at = at;
    }
  }

  /** Returns the address of structs and their count, as two arguments of a call. */
  const counted = (frame, structs) => [frame.given(structs)[0], BigInt(structs.byteLength / STRUCT)];

  /** Reads the VRPs of a validator's file. */
  const readVrps = (file) => readStructs("pigy_vrps_read", file, vrpOf, [], 1)[0];

  /** Reads the VRPs of a validator's file that have not expired at a time in seconds since 1970. */
  function readUnexpiredVrps(file, time) {
    const words = [BigInt(integer(time, Number.MAX_SAFE_INTEGER, "time"))];
    const [vrps, expired] = readStructs("pigy_vrps_read_unexpired", file, vrpOf, words, 2);
    return { vrps, expired };
  }

  /** Applies a SLURM file (RFC 8416) to VRPs. Returns the VRPs that no filter matches, and then its assertions. */
  function applySlurm(file, vrps) {
    const instance = loaded(), octets = octetsOf(file, "file"), structs = structsOf(instance, vrps, VRPS, "vrps");
    const room = structs.byteLength / STRUCT + Math.ceil(octets.byteLength / 16);
    let place = {}; // of an error: the index of a VRP, or the number of an item
    return new Structs(listed(instance, STRUCT, room, (frame, out, capacity, length) => {
      const words = [...frame.given(octets), ...counted(frame, structs), out, capacity, length];
      const [index, item] = [frame.word(), frame.word()];
      const status = instance.call("pigy_slurm_apply", ...words, BigInt(index), BigInt(item));
      if (status & STATUS.BAD_ARGUMENT) place = { index: instance.word(index) };
      else if (instance.word(item) !== 0) place = { item: instance.word(item) };
      return status;
    }, () => place), vrpOf);
  }

  /** Reads the routes of lines, as the program origins does. */
  const readRoutes = (lines) => readStructs("pigy_routes_read", lines, routeOf, [], 1)[0];

  /** Validates routes by several tables at once. */
  function validateRoutes(tables, routes) {
    if (typeof tables?.[Symbol.iterator] !== "function") throw wrong(`tables: ${shown(tables)} is no list`);
    const held = [...tables].map((it, at) => Handle.of(it, Table, `tables[${at}]`));
    const instance = held[0]?.instance ?? loaded();
    if (held.some((it) => it.instance !== instance)) throw wrong("tables: they are of several calls of Pigyelund.load");
    const handles = new BigUint64Array(held.map((it) => it.at));
    return validated(instance, routes, "pigy_tables_validate_routes", (frame) =>
      [frame.given(new Uint8Array(handles.buffer))[0], BigInt(held.length)]);
  }

  /** Returns the answer of respath to a line. */
  function answer(line) {
    const instance = loaded(), octets = encoded(line, "line");
    return new TextDecoder().decode(listed(instance, 1, 256, (frame, out, capacity, length) =>
      instance.call("pigy_answer", ...frame.given(octets), out, capacity, length)));
  }

  // ---- Loading ----

  /** Returns the octets of text in base64. */
  function decoded(base64) {
    return Uint8Array.from(atob(base64), (it) => it.charCodeAt(0));
  }

  /** Makes an instance of the module, which all calls use from then on. Without an argument the module is that of
   * module.js. Returns the facts about the module that module.js has. */
  async function load(given) {
    if (typeof WebAssembly !== "object" || typeof BigInt !== "function") throw new PigyelundError("ENGINE", NEEDS);
    const stored = globalThis.PigyelundModule;
    if (given === undefined && stored === undefined)
      throw new PigyelundError("NOT_LOADED", "module.js is not loaded; load it, or pass the octets of the module");
    const isMade = given instanceof WebAssembly.Module;
    const octets = isMade ? null : given === undefined ? decoded(stored.base64) : octetsOf(given, "module").slice();
    try {
      if (octets && !WebAssembly.validate(octets)) throw new Error("it is invalid");
      const module = octets ? await WebAssembly.compile(octets) : given;
      current = new Instance((await WebAssembly.instantiate(module, {})).exports);
    } catch (reason) {
      const policy = "a page with a Content-Security-Policy needs 'wasm-unsafe-eval' in its script-src";
      throw new PigyelundError("ENGINE", `${NEEDS}; this one refuses the module (${reason}); ${policy}`);
    }
    const { base64, ...facts } = stored ?? {};
    return given === undefined ? facts : {};
  }

  const names = { Error: PigyelundError, Resources, Table, addressText, answer, applySlurm, load, readRoutes,
    readUnexpiredVrps, readVrps, validateRoutes, validityText };
  // a page that was opened as a file can start a worker only from a text; a compiler may take `default` of require
  const source = `globalThis.Pigyelund = (${make})();\n`;
  return Object.freeze(Object.defineProperties(names, { source: { value: source }, default: { value: names } }));
})();
// a CommonJS module: require("pigyelund")
if (typeof module === "object" && module?.exports && typeof require === "function") {
  if (globalThis.PigyelundModule === undefined) require("./module.js");
  module.exports = globalThis.Pigyelund;
}
