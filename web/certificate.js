"use strict";
/* Finds the resource extensions of a certificate in DER (RFC 5280, 4.1). Only this file of the page reads octets of a
 * file by itself. It is tested, not proved: it takes the values of four extensions as they are, and judges none. */
const RESOURCE_OIDS = {
  "2b06010505070107": ["ip", "refuse"], // 1.3.6.1.5.5.7.1.7, IP address blocks of RFC 3779
  "2b06010505070108": ["as", "refuse"], // 1.3.6.1.5.5.7.1.8, AS identifiers of RFC 3779
  "2b0601050507011c": ["ip", "trim"], // 1.3.6.1.5.5.7.1.28, IP address blocks of RFC 8360
  "2b0601050507011d": ["as", "trim"], // 1.3.6.1.5.5.7.1.29, AS identifiers of RFC 8360
};
const hexOf = (octets) => Array.from(octets, (it) => it.toString(16).padStart(2, "0")).join("");
/** Reads the value at `at`, which has to end at `end` or before. Returns its tag, its place and that of its content. */
function derValue(octets, at, end) {
  const size = octets[at + 1] - 0x80, start = at + 2 + Math.max(size, 0);
  if (!(start <= end)) throw new Error(`octet ${at}: the certificate is truncated`);
  if (size === 0 || size > 4) throw new Error(`octet ${at + 1}: a length of DER is expected`);
  const length = size < 0 ? size + 0x80 : octets.subarray(at + 2, start).reduce((sum, it) => sum * 256 + it, 0);
  if (start + length > end) throw new Error(`octet ${at}: the certificate is truncated`);
  return { tag: octets[at], at, start, end: start + length };
}
/** Returns the values in the value from `at` to `end`, whose tag has to be `tag`. */
function derValues(octets, { at, end }, tag, what) {
  const outer = derValue(octets, at, end), inner = [];
  if (outer.tag !== tag) throw new Error(`octet ${at}: ${what} is expected`);
  if (outer.end !== end) throw new Error(`octet ${outer.end}: data after ${what}`);
  for (let next = outer.start; next < outer.end; next = inner.at(-1).end) inner.push(derValue(octets, next, outer.end));
  return inner;
}
/** Returns the extensions `as` and `ip` of a certificate, null for an absent one, and the mode that their OIDs name. */
function resourceExtensions(octets) {
  const found = { as: null, ip: null, mode: null };
  const [signed] = derValues(octets, { at: 0, end: octets.length }, 0x30, "a certificate in DER");
  if (!signed) throw new Error("octet 0: a certificate in DER is expected");
  const wrapped = derValues(octets, signed, 0x30, "the signed part of a certificate").at(-1);
  if (wrapped?.tag !== 0xa3) throw new Error("the certificate has no extensions");
  for (const extension of derValues(octets, { ...wrapped, at: wrapped.start }, 0x30, "a list of extensions")) {
    const parts = derValues(octets, extension, 0x30, "an extension"), [name] = parts, value = parts.at(-1);
    if (name?.tag !== 0x06 || name.end - name.start !== 8) continue;
    const [kind, mode] = RESOURCE_OIDS[hexOf(octets.subarray(name.start, name.end))] ?? [];
    if (!kind) continue;
    if (value.tag !== 0x04) throw new Error(`octet ${value.at}: the value of an extension is expected`);
    if (found[kind]) throw new Error(`octet ${extension.at}: the certificate has this extension twice`);
    if ((found.mode ?? mode) !== mode) throw new Error("the extensions are of RFC 3779 and of RFC 8360");
    Object.assign(found, { [kind]: octets.slice(value.start, value.end), mode });
  }
  if (!found.mode) throw new Error("the certificate has neither AS identifiers nor IP address blocks");
  return found;
}
