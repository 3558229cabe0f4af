// The types of Pigyelund for JavaScript, for `import` and for `require`. README.md is the guide. The repository has
// foreign/pigyelund.h, which describes each call.

/** Octets: they are copied before a call reads them. A view of other elements, such as a Uint16Array, is refused. */
export type Octets = Uint8Array | ArrayBuffer | SharedArrayBuffer | DataView;
/** The DER of an extension (the content of extnValue), or null if a certificate does not have the extension. A call
 * refuses undefined. */
export type Der = Octets | null;
/** `strict` accepts canonical DER alone. */
export type Encoding = "strict" | "lenient";
/** `refuse` is RFC 6487, 7.2, and `trim` RFC 8360, 4. */
export type Mode = "refuse" | "trim";
export type Family = "ipv4" | "ipv6";
export type Kind = "asn" | Family;

/** The extensions of a certificate on a path. An absent one is null or left out. A call refuses undefined, and any
 * other member. */
export interface Certificate {
  readonly as?: Der;
  readonly ip?: Der;
  /** `refuse` if it is left out. */
  readonly mode?: Mode;
}

export interface AsRange {
  min: number;
  max: number;
}

/** A range of addresses: as texts, and as 4 or 16 octets in network byte order. */
export interface IpRange {
  min: string;
  max: string;
  minOctets: Uint8Array;
  maxOctets: Uint8Array;
}

export interface Vrp {
  prefix: string;
  maxLength: number;
  asn: number;
}

export interface Route {
  prefix: string;
  asn: number;
}

/** A VRP that is passed: an object, or a text such as "10.0.0.0/8-16 AS64496". Without a maximum length this is the
 * length of the prefix. A call refuses an object with any other member. */
export type GivenVrp =
  | string
  | { readonly prefix: string; readonly maxLength?: number | null; readonly asn: number | string };
/** A route that is passed: an object, or a text such as "10.0.0.0/8 AS64496". A call refuses an object with any other
 * member. */
export type GivenRoute = string | { readonly prefix: string; readonly asn: number | string };
/** VRPs in any order, or one buffer of structs of 24 octets each, whose layout README.md has. */
export type Vrps = (Iterable<GivenVrp> & object) | Structs<Vrp> | Octets;
export type RouteStructs = Structs<Route> | Octets;

/** The validity of a route. The last two words are the reasons why a route is invalid. */
export type Validity = "valid" | "not-found" | "invalid-as" | "invalid-length";

/** The numbers for each route of a buffer or of a `Structs` list. `validityText` returns their word. */
export interface Validities {
  /** 0 for valid, 1 for not-found, 2 for invalid (RFC 8097, 2). */
  validities: Uint8Array;
  /** 1 for invalid-as, 2 for invalid-length, 0 for a route that is not invalid. */
  reasons: Uint8Array;
}

/** A VRP that covers a route. It matches the route if both reasons are false. */
export interface Covering {
  vrp: Vrp;
  otherAs: boolean;
  tooLong: boolean;
}

/** A list in one array of structs. `octets` may be transferred to a worker. After that each call with the list throws
 * an error. */
export interface Structs<Item> extends Iterable<Item> {
  readonly octets: Uint8Array;
  readonly length: number;
  /** Returns an item, as Array.at does: -1 is the index of the last item. */
  at(index: number): Item | undefined;
  /** Returns the list of the items whose octet is not 0, for example of the routes that `revalidate` found. There has
   * to be one octet for each item. */
  subset(chosen: Octets): Structs<Item>;
}

/** A set of AS numbers, IPv4 addresses and IPv6 addresses. It never changes. */
export class Resources {
  private constructor();
  /** Reads the set of a trust anchor, or one that `der` returned. */
  static read(asDer: Der, ipDer: Der, encoding?: Encoding): Resources;
  /** Makes a set from a list such as "10.0.0.0/8, 192.0.2.1-192.0.2.9". */
  static fromText(text: string, kind: Kind): Resources;
  /** Returns the resources of a certificate whose issuer has this set. The defaults are "strict" and "refuse". */
  verify(asDer: Der, ipDer: Der, encoding?: Encoding, mode?: Mode): Resources;
  /** Returns the resources of the last certificate. The first one is the child of this trust anchor. */
  verifyPath(certificates: Iterable<Certificate>, encoding?: Encoding): Resources;
  union(other: Resources): Resources;
  intersection(other: Resources): Resources;
  difference(other: Resources): Resources;
  symmetricDifference(other: Resources): Resources;
  contains(other: Resources): boolean;
  containsAsn(asn: number): boolean;
  containsPrefix(prefix: string): boolean;
  equal(other: Resources): boolean;
  /** Lists the fewest prefixes that have exactly the addresses. */
  prefixes(family: Family): string[];
  asRanges(): AsRange[];
  ipRanges(family: Family): IpRange[];
  /** Returns canonical DER, null for an extension without resources. */
  der(): { as: Uint8Array | null; ip: Uint8Array | null };
  text(kind: Kind): string;
  /** Returns the texts of the three kinds as one list. */
  toString(): string;
  /** Frees the set. Each later call with it throws an error. */
  close(): void;
}

/** A table of VRPs (RFC 6811). It never changes. */
export class Table {
  constructor(vrps: Vrps);
  readonly length: number;
  validate(routes: RouteStructs): Validities;
  validate(route: GivenRoute): Validity;
  validate(routes: Iterable<GivenRoute>): Validity[];
  /** Says for each route whether its validity (valid, not-found or invalid) differs in the next table: 1 or true. The
   * reasons are not compared: a route that was invalid-as and is invalid-length counts as equal. */
  revalidate(next: Table, routes: RouteStructs): Uint8Array;
  revalidate(next: Table, routes: Iterable<GivenRoute>): boolean[];
  /** Makes the next table: without the withdrawn VRPs, and then with the announced ones. */
  withChanges(announced: Vrps, withdrawn: Vrps): Table;
  /** Lists the VRPs that only the next table has, and those that only this one has. */
  changes(next: Table): { announced: Structs<Vrp>; withdrawn: Structs<Vrp> };
  /** Lists the VRPs that cover a route, the longest prefix first. */
  covering(route: GivenRoute | Octets): Covering[];
  vrps(): Structs<Vrp>;
  /** Returns the number of VRPs as a text such as "3 VRPs". */
  toString(): string;
  /** Frees the table. Each later call with it throws an error. */
  close(): void;
}

// made by foreign/bindings.py: begin
/** The name of a status of the module. */
export type Status =
  /** Out of memory. */
  | "MEMORY"
  /** The family is neither IPV4 nor IPV6. */
  | "BAD_FAMILY"
  /** The prefix is longer than its family allows, or has host bits set. */
  | "BAD_PREFIX"
  /** The maximum length is below the prefix length, or is above 32 (IPv4) or 128 (IPv6). */
  | "BAD_MAX_LEN"
  /** The AS identifiers are invalid. `fault` 1: truncated; 2: wrong tag; 3: bad length; 4: bad integer; 5: bad bit
   * string; 6: bad NULL; 7: trailing data; 8: bad prefix; 9: bad family; 10: reversed range; 11: no blocks; 12: family
   * twice; 13: no family; 14: not canonical. */
  | "BAD_AS"
  /** The IP address blocks are invalid. `fault` 1: truncated; 2: wrong tag; 3: bad length; 4: bad integer; 5: bad bit
   * string; 6: bad NULL; 7: trailing data; 8: bad prefix; 9: bad family; 10: reversed range; 11: no blocks; 12: family
   * twice; 13: no family; 14: not canonical. */
  | "BAD_IP"
  /** A set has "inherit". Only a certificate may have it. */
  | "INHERITED"
  /** The certificate has neither extension. */
  | "ABSENT"
  /** Overclaimed IPv4 addresses. */
  | "OVERCLAIM_V4"
  /** Overclaimed AS numbers. */
  | "OVERCLAIM_AS"
  /** Overclaimed IPv6 addresses. */
  | "OVERCLAIM_V6"
  /** A withdrawn VRP is not in the table, or is listed twice. */
  | "UNKNOWN_WITHDRAWAL"
  /** An announced VRP is in the table and not withdrawn, or is listed twice. */
  | "DUPLICATE_ANNOUNCEMENT"
  /** A line of CSV, or the text of a VRP, is invalid. `fault` 1: not UTF-8; 2: too many fields; 3: too few fields; 4:
   * bad AS number; 5: bad prefix; 6: maximum length is no number from 0 to 255; 7: bad maximum length of the prefix;
   * 20: bad expiry. */
  | "BAD_LINE"
  /** An item of JSON is invalid. `fault` 4: bad AS number; 5: bad prefix; 6: maximum length is no number from 0 to 255;
   * 7: bad maximum length of the prefix; 8: asn is missing; 9: asn is repeated; 10: asn has a wrong kind of value; 11:
   * prefix is missing; 12: prefix is repeated; 13: prefix has a wrong kind of value; 14: maxLength is missing; 15:
   * maxLength is repeated; 16: maxLength has a wrong kind of value; 18: expires is repeated; 19: expires has a wrong
   * kind of value; 20: bad expiry. */
  | "BAD_ITEM"
  /** A file as a whole is invalid. `fault` 1: a JSON array in place of an object; 2: not a JSON object; 3: roas is
   * missing; 4: roas is repeated; 5: roas has a wrong kind of value; 6: no VRP; 7: first line is neither a known header
   * nor a VRP. */
  | "BAD_FILE"
  /** The text of a set is invalid. `fault` 1: not UTF-8; 2: bad AS number; 3: bad range of AS numbers; 4: bad address;
   * 5: bad prefix length; 6: address of the other family; 7: reversed range. */
  | "BAD_TEXT"
  /** The line that is passed to answer is invalid. */
  | "BAD_QUERY"
  /** A SLURM file is invalid, except for its items. `fault` 1: not a JSON object; 2: unknown member; 3: slurmVersion is
   * not 1; 4: unknown member of validationOutputFilters; 5: unknown member of locallyAddedAssertions; 6: slurmVersion
   * is missing; 7: slurmVersion is repeated; 8: slurmVersion has a wrong kind of value; 9: validationOutputFilters is
   * missing; 10: validationOutputFilters is repeated; 11: validationOutputFilters has a wrong kind of value; 12:
   * locallyAddedAssertions is missing; 13: locallyAddedAssertions is repeated; 14: locallyAddedAssertions has a wrong
   * kind of value; 15: prefixFilters is missing; 16: prefixFilters is repeated; 17: prefixFilters has a wrong kind of
   * value; 18: bgpsecFilters is missing; 19: bgpsecFilters is repeated; 20: bgpsecFilters has a wrong kind of value;
   * 21: prefixAssertions is missing; 22: prefixAssertions is repeated; 23: prefixAssertions has a wrong kind of value;
   * 24: bgpsecAssertions is missing; 25: bgpsecAssertions is repeated; 26: bgpsecAssertions has a wrong kind of value.
   * */
  | "BAD_SLURM"
  /** A line with a route, or the text of a route, is invalid. `fault` 1: not UTF-8; 2: too few fields; 3: a comma where
   * a space is expected; 4: the first word is no prefix; 5: bad prefix; 6: bad AS number. */
  | "BAD_ROUTE"
  /** An item of a SLURM file is invalid. For an item of prefixFilters `fault` 1: not an object; 2: unknown member; 3:
   * bad prefix; 4: bad AS number; 7: neither prefix nor asn; 9: prefix is repeated; 10: prefix has a wrong kind of
   * value; 12: asn is repeated; 13: asn has a wrong kind of value; 24: comment is repeated; 25: comment has a wrong
   * kind of value. For an item of bgpsecFilters `fault` 65: not an object; 66: unknown member; 68: bad AS number; 71:
   * neither asn nor SKI; 76: asn is repeated; 77: asn has a wrong kind of value; 82: SKI is repeated; 83: SKI has a
   * wrong kind of value; 88: comment is repeated; 89: comment has a wrong kind of value. For an item of
   * prefixAssertions `fault` 129: not an object; 130: unknown member; 131: bad prefix; 132: bad AS number; 133: maximum
   * length is no number from 0 to 255; 134: bad maximum length of the prefix; 136: prefix is missing; 137: prefix is
   * repeated; 138: prefix has a wrong kind of value; 139: asn is missing; 140: asn is repeated; 141: asn has a wrong
   * kind of value; 143: maxPrefixLength is repeated; 144: maxPrefixLength has a wrong kind of value; 152: comment is
   * repeated; 153: comment has a wrong kind of value. For an item of bgpsecAssertions `fault` 193: not an object; 194:
   * unknown member; 196: bad AS number; 203: asn is missing; 204: asn is repeated; 205: asn has a wrong kind of value;
   * 209: SKI is missing; 210: SKI is repeated; 211: SKI has a wrong kind of value; 212: routerPublicKey is missing;
   * 213: routerPublicKey is repeated; 214: routerPublicKey has a wrong kind of value; 216: comment is repeated; 217:
   * comment has a wrong kind of value. */
  | "BAD_SLURM_ITEM";
// made by foreign/bindings.py: end

/** A list of a SLURM file. */
export type SlurmList = "prefixFilters" | "bgpsecFilters" | "prefixAssertions" | "bgpsecAssertions";

/** A reason for which the module is not called, or gives no result. */
export type ScriptCode =
  /** An argument has a wrong type, is out of range, or is a handle of another call of `load`. */
  | "ARGUMENT"
  /** The handle is closed. */
  | "CLOSED"
  /** The engine cannot run the module, or a Content-Security-Policy forbids it. */
  | "ENGINE"
  /** No call of `load` has ended, or the module is of another version. */
  | "NOT_LOADED"
  /** The module stopped, for example by an overflow of the stack. Its handles are lost. Call `load` again. */
  | "TRAPPED"
  /** The module is of another version, and returned a status that this script does not have. */
  | "UNKNOWN";

/** The error of each call that fails. */
declare class PigyelundError extends globalThis.Error {
  private constructor();
  readonly name: "Pigyelund.Error";
  readonly code: Status | ScriptCode;
  /** The status of the module as a number. */
  readonly status?: number;
  /** The number of the error among those that the comment of the code lists. */
  readonly fault?: number;
  /** For an invalid extension: it is that of a certificate, and not the issuer's. For any other code: the error is in a
   * route that was passed, or in a withdrawn VRP. */
  readonly isSecond?: true;
  /** The index of the item at fault in a list that was passed, from 0. */
  readonly index?: number;
  /** The line of a file, or for BAD_ITEM the item of the array `roas`, from 1. */
  readonly line?: number;
  /** For BAD_SLURM_ITEM the list that has the invalid item. */
  readonly list?: SlurmList;
  /** The number of the invalid item in `list`, from 1. For BAD_SLURM the number of an unknown member in its object. */
  readonly item?: number;
  /** The number of certificates of a path that are verified. */
  readonly verified?: number;
  /** The overclaimed resources of the first kind: AS numbers, IPv4 or IPv6. */
  readonly excess?: Resources;
}
export { PigyelundError as Error };

/** What module.js says about the module. */
export interface Facts {
  readonly version?: string;
  readonly commit?: string;
  readonly proved?: boolean;
  readonly verdict?: string;
  readonly sources?: string;
  readonly sha256?: string;
}

/** Makes an instance of the module, which all calls use from then on. Without an argument it is that of module.js. The
 * argument is a WebAssembly.Module, or the octets of one. */
export function load(module?: Octets | object): Promise<Facts>;
/** Returns the text of an address of 4 or 16 octets. A call refuses any other length. */
export function addressText(octets: Octets): string;
/** Returns the answer of the program respath to a line. */
export function answer(line: string): string;
/** Applies a SLURM file (RFC 8416) to VRPs. Returns the VRPs that no filter matches, in their order, and then those of
 * prefixAssertions. */
export function applySlurm(file: Octets, vrps: Vrps): Structs<Vrp>;
/** Reads the VRPs of a validator's file. */
export function readVrps(file: Octets): Structs<Vrp>;
/** Reads the VRPs of a validator's file that have not expired, and counts the others. The time is in whole seconds
 * since 1970-01-01 UTC: Math.floor(Date.now() / 1000). With milliseconds all VRPs have expired. */
export function readUnexpiredVrps(file: Octets, time: number): { vrps: Structs<Vrp>; expired: number };
/** Reads the routes of lines, as the program origins does: also lines of `bgpdump -m`. A line of
 * bgpdump that announces no route is skipped. So an index of the list is not the number of a line. */
export function readRoutes(lines: Octets): Structs<Route>;
/** Validates routes by the VRPs of all tables together. Without tables each route is not-found. */
export function validateRoutes(tables: Iterable<Table>, routes: RouteStructs): Validities;
export function validateRoutes(tables: Iterable<Table>, route: GivenRoute): Validity;
export function validateRoutes(tables: Iterable<Table>, routes: Iterable<GivenRoute>): Validity[];
/** Returns the word of a validity and of its reason. */
export function validityText(validity: number, reason: number): Validity;
/** The text of the script pigyelund.js, for a worker. */
export const source: string;

declare const Pigyelund: {
  readonly Error: typeof PigyelundError;
  readonly Resources: typeof Resources;
  readonly Table: typeof Table;
  readonly addressText: typeof addressText;
  readonly answer: typeof answer;
  readonly applySlurm: typeof applySlurm;
  readonly load: typeof load;
  readonly readRoutes: typeof readRoutes;
  readonly readUnexpiredVrps: typeof readUnexpiredVrps;
  readonly readVrps: typeof readVrps;
  readonly validateRoutes: typeof validateRoutes;
  readonly validityText: typeof validityText;
  readonly source: string;
};
export default Pigyelund;

declare global {
  var Pigyelund: typeof import("./pigyelund.js").default;
}
