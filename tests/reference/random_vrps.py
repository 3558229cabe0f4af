"""Makes files of VRPs in each form that validators write, also wrong ones, SLURM files, and lines of routes."""

import json
from random import Random

from .addresses import Family
from .prefixes import MaxLenPrefix, Prefix, Vrp

# Paths that end with a set of AS numbers or with a confederation's segment, empty paths, and malformed ones.
PATHS = (
    *("", "64500 {7,8}", "{64496}", "7 {}", "64500 (64512)", "64500 (64512 64513)", "(64496 64497)", "64500 [64496]"),
    *("64500 [64496,64497]", "[64512, 64513]", "64500 ( 64512 )", "(64512) 64496", "[64512] {7}", "(64512 [64496])"),
    *("64500 )", "]", "64500 64496)", "64500 (64496", "[", "{64496)", "(64496}", "64496]x"),
)
DAMAGE = "0123456789ASas.:/-+,|{} \t\"\\\b\f\x01\x1f\x7f\u00a0\u0661\U0001f600"


class Maker:
    """Makes files of VRPs and lines of routes that lie close together."""

    def __init__(self, seed: int) -> None:
        self.random = Random(seed)

    def one_in(self, count: int) -> bool:
        """Returns true in one of `count` cases, at random."""
        return self.random.randrange(count) == 0

    def prefix(self) -> Prefix:
        """Returns a prefix of any length among few addresses."""
        family = self.random.choice((Family.V4, Family.V4, Family.V6))
        low = 4 if self.one_in(8) else 16
        length = self.random.randint(0 if self.one_in(30) else low, 32 if self.one_in(4) else 26)
        base = 0x0A000000 if family is Family.V4 else 0x20010DB8 << 96
        bits = self.random.getrandbits(6) << family.bits - 26 | self.random.getrandbits(2) << family.bits - 16
        behind = family.bits - length
        return Prefix(family, (base ^ bits) >> behind << behind, length)

    def asn(self) -> int:
        """Returns an AS number out of a few, and sometimes AS0 or the last one."""
        return self.random.choice((64496, 64497, 64498, 64499, 0 if self.one_in(4) else 7, 2**32 - 1))

    def vrp(self) -> Vrp:
        """Returns a VRP."""
        prefix = self.prefix()
        longest = min(prefix.family.bits, prefix.length + self.random.choice((0, 0, 1, 2, 8)))
        return Vrp(MaxLenPrefix(prefix, longest), self.asn())

    def damaged(self, text: str) -> str:
        """Returns a text with characters inserted, dropped or replaced."""
        for _ in range(self.random.randint(1, 2)):
            at = self.random.randrange(len(text) + 1)
            inserted = self.random.choice(DAMAGE) if self.one_in(2) else ""
            text = text[:at] + inserted + text[at + self.random.randrange(2) :]
        return text

    def resized(self, row: str) -> str:
        """Returns a row with more or fewer fields."""
        fields = row.split(",")
        more = self.random.choice(("", "x", '"a,b"', ",,"))
        return self.random.choice((",".join((row, more)), ",".join(fields[:-1]), fields[0], f"x,{row}"))

    def max_length(self, prefix: MaxLenPrefix) -> str:
        """Returns the field of a maximum length. It may be empty for the length of the prefix (RFC 9582, 4.3.2.2)."""
        is_own = prefix.max_length == prefix.prefix.length
        return "" if is_own and self.one_in(3) else str(prefix.max_length)

    def file(self, vrps: list[Vrp]) -> bytes:
        """Returns a file of VRPs in one of the forms that validators write."""
        return self.random.choice((self._plain, self._quoted, self._later, self._json, self._json))(vrps)

    def _plain(self, vrps: list[Vrp]) -> bytes:
        end = self.random.choice(("\n", "\r\n"))
        names = ("ASN,IP Prefix,Max Length,Trust Anchor", "ASN,Prefix,Max prefix length", "")
        name = self.random.choice(names)
        head, last = f"{name}{end}" if name else "", "" if name == names[1] else ",ripe"
        lines = [f"AS{asn},{prefix.prefix.text()},{self.max_length(prefix)}{last}" for prefix, asn in vrps]
        return (head + end.join(lines) + self.random.choice(("", end, end + end))).encode()

    def _quoted(self, vrps: list[Vrp]) -> bytes:
        head = '"ASN","IP Prefix","Max Length","Trust Anchor"\n'
        lines = [f'"{asn}","{prefix.prefix.text()}","{self.max_length(prefix)}","x"\n' for prefix, asn in vrps]
        return (head + "".join(lines)).encode()

    def _later(self, vrps: list[Vrp]) -> bytes:
        head = "URI,ASN,IP Prefix,Max Length,Not Before,Not After\n"
        lines = [f"rsync://x/,AS{asn},{prefix.prefix.text()},{self.max_length(prefix)},a,b\n" for prefix, asn in vrps]
        return (head + "".join(lines)).encode()

    def _json(self, vrps: list[Vrp]) -> bytes:
        items = []
        for one, asn in vrps:
            number = asn if self.one_in(2) else f"AS{asn}"
            items.append({"asn": number, "prefix": one.prefix.text(), "maxLength": one.max_length, "ta": "ripe"})
        value = {"metadata": {"vrps": len(items)}, "roas": items, "bgpsec_keys": []}
        return json.dumps(value, indent=self.random.choice((None, 1))).encode()

    def wrong(self, vrps: list[Vrp]) -> bytes:
        """Returns such a file, but damaged or cut, with a row of another length, or as an array."""
        octets = self.file(vrps)
        if self.one_in(8):
            return self.random.choice((b"", b" \n\t", b"\xc2\xa0", b"x")) + b"[" + octets + b"]"
        if self.one_in(4):
            return octets[: self.random.randrange(len(octets) + 1)]
        lines = octets.decode().split("\n")
        at = self.random.randrange(len(lines))
        lines[at] = self.resized(lines[at]) if self.one_in(3) else self.damaged(lines[at])
        return "\n".join(lines).encode()

    def dated(self, vrps: list[Vrp]) -> bytes:
        """Returns a file of VRPs. Some have an expiry of a few seconds around 1000, or a wrong one."""
        times = [self.random.choice(("", *map(str, range(997, 1004)), "x" if self.one_in(30) else "")) for _ in vrps]
        if self.one_in(2):
            lines = [
                f"AS{asn},{one.prefix.text()},{one.max_length},x,{time}"
                for (one, asn), time in zip(vrps, times, strict=True)
            ]
            return "\n".join(["ASN,IP Prefix,Max Length,Trust Anchor,Expires", *lines, ""]).encode()
        items = []
        for (one, asn), time in zip(vrps, times, strict=True):
            item: dict = {"asn": asn, "prefix": one.prefix.text(), "maxLength": one.max_length, "ta": "x"}
            if time:
                item["expires"] = int(time) if time.isdigit() else time
            items.append(item)
        return json.dumps({"roas": items}).encode()

    def slurm(self) -> bytes:
        """Returns a SLURM file, which may be wrong."""
        filters: list[dict] = []
        for _ in range(self.random.randrange(4)):
            one = {"prefix": self.prefix().text(), "asn": self.asn(), "comment": "x"}
            for name in self.random.sample(("prefix", "asn", "comment"), self.random.randrange(3)):
                del one[name]
            filters.append(one)
        assertions: list[dict] = []
        for _ in range(self.random.randrange(4)):
            prefix, asn = self.vrp()
            one = {"asn": asn, "prefix": prefix.prefix.text(), "maxPrefixLength": prefix.max_length}
            if self.one_in(3):
                del one["maxPrefixLength"]
            assertions.append(one)
        value = {
            "slurmVersion": 2 if self.one_in(30) else 1,
            "validationOutputFilters": {"prefixFilters": filters, "bgpsecFilters": []},
            "locallyAddedAssertions": {"prefixAssertions": assertions, "bgpsecAssertions": []},
        }
        text = json.dumps(value, indent=self.random.choice((None, 1)))
        return (self.damaged(text) if self.one_in(4) else text).encode()

    def dumped(self, prefix: str, path: str) -> str:
        """Returns a line as `bgpdump -m` prints it."""
        name = self.random.choice("TABLE_DUMP TABLE_DUMP2 BGP4MP BGP4MP_ET BGP4MP_LOCAL BGP4MP_ET_LOCAL".split())
        kind = self.random.choice(("A", "A", "A", "W", "STATE", "B")) if name.startswith("BGP4MP") else "B"
        has_identifier = self.one_in(3)
        head = f"{name}{'_AP' if has_identifier else ''}|1732579200|{kind}|203.0.113.1|64500"
        if kind == "STATE":
            return f"{head}|6|1"
        if kind == "W":
            return f"{head}|{prefix}{'|7' if has_identifier else ''}"
        return f"{head}|{prefix}|{'7|' if has_identifier else ''}{path}|IGP|203.0.113.1|0|0||NAG||"

    def line(self) -> bytes:
        """Returns a line of a route."""
        prefix, origin = self.prefix(), self.asn()
        path = self.random.choice(PATHS) if self.one_in(4) else f"64500 {origin}"
        text = self.random.choice(
            (
                f"{prefix.text()} AS{origin}",
                f"{prefix.text()} {origin}",
                f"\t{prefix.text()}  as{origin}\r",
                f"{prefix.text()},AS{origin}",
                f"{prefix.text()}{self.random.choice((',', ', ', ' ,', ',,', ';', chr(9) + ','))}{origin}",
                self.dumped(prefix.text(), path),
                self.dumped(prefix.text(), path),
            )
        )
        octets = (self.damaged(text) if self.one_in(6) else text).encode().replace(b"\n", b"")
        return octets[:9] + b"\xff" + octets[9:] if self.one_in(200) else octets
