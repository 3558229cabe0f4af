// Right calls, which tsc --strict accepts.
import Pigyelund, {
  Error as PigyelundError, Resources, Table, answer, applySlurm, load, readRoutes, readVrps, source,
} from "../pigyelund";

export async function calls(der: Uint8Array, file: ArrayBuffer): Promise<number> {
  const { version } = await load();
  const anchor = Resources.read(null, der, "lenient");
  const set: Resources = anchor.verify(null, der, "strict", "trim").union(Resources.fromText("AS1", "asn"));
  try {
    anchor.verifyPath([{ ip: der }, { as: null, ip: der.buffer, mode: "trim" }]);
  } catch (reason) {
    if (reason instanceof PigyelundError) console.log(reason.code, reason.excess?.text("ipv4"), reason.verified);
    if (reason instanceof PigyelundError && reason.item !== undefined) console.log(reason.item.toFixed(), reason.fault);
    if (reason instanceof PigyelundError && reason.code === "BAD_SLURM") console.log(reason.list === "prefixFilters");
  }
  const table = new Table([{ prefix: "10.0.0.0/8", maxLength: 16, asn: 64496 }, "10.0.0.0/8 AS1"]);
  const [first] = table.validate(["10.0.0.0/8 AS64496"]);
  const { validities } = table.validate(new Uint8Array(24));
  const word: string = first === "valid" ? table.validate({ prefix: "10.0.0.0/8", asn: "AS1" }) : answer("norm as 1");
  const next = table.withChanges(readVrps(file), applySlurm(file, applySlurm(der, ["10.0.0.0/8 AS1"])));
  const [kept] = [...applySlurm(file, readVrps(der)), applySlurm(file, der).at(0)];
  console.log(kept?.maxLength.toFixed(), new Table(applySlurm(file, table.vrps().octets)).length);
  const isOther: boolean[] = table.revalidate(next, new Set(["10.0.0.0/8 AS1"]));
  for (const { prefix, asn } of table.changes(next).announced) console.log(prefix, asn.toFixed(), isOther, word);
  const routes = readRoutes(file), changed = routes.subset(table.revalidate(next, routes));
  console.log(version, changed.at(-1)?.prefix, `${set} ${table}`, source === Pigyelund.source);
  next.close();
  return validities[0] + set.asRanges()[0].min + set.ipRanges("ipv6").length + Pigyelund.source.length;
}
