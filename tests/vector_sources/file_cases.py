"""The cases of vrp_files.json: files of VRPs, as validators write them."""

import re
from collections.abc import Iterator
from typing import Any

from . import by_reference as reference
from .cases import Case, Difference, Flag, Rows, VectorFile, agree, ordered
from .origin_cases import vrp

LINK = "docs/DECISIONS.md#files-of-vrps"
OWN = "docs/DECISIONS.md, Files of VRPs"
# The reasons of a refused file, the names that the vectors have for them, and what they say.
FAULTS = {
    r"line 1: neither a known header .*": ("UnknownHeader", "the first line is neither a known header nor a VRP"),
    r"line \d+: not UTF-8": ("NotUtf8", "a line is not UTF-8"),
    r"line \d+: too few fields.*": ("TooFewFields", "a line has too few fields"),
    r"line \d+: too many fields.*": ("TooManyFields", "a line has more fields than its header"),
    r"(line|item) \d+: invalid AS number": ("BadAsNumber", "an AS number is not a number from 0 to 4294967295"),
    r"(line|item) \d+: invalid prefix: non-zero host portion": (
        "HostBits",
        "bits after the length of a prefix are set",
    ),
    r"(line|item) \d+: invalid prefix: .*": ("BadPrefix", "a prefix is not one"),
    r"(line|item) \d+: invalid max length: .*": ("BadMaxLength", "a maximum length is not a decimal number"),
    r"(line|item) \d+: max-length too large": ("MaxLengthTooLarge", "a maximum length is above 32 or 128"),
    r"(line|item) \d+: max-length smaller than prefix length": (
        "MaxLengthTooSmall",
        "a maximum length is below the length of its prefix",
    ),
    r"item \d+: \w+: missing": ("MemberMissing", "an item does not have a member that is needed"),
    r"item \d+: \w+: repeated": ("MemberRepeated", "an item has a member twice"),
    r"item \d+: \w+: wrong kind of value": ("MemberKind", "a member of an item is of another kind"),
    r"no VRP": ("NoVrp", "the file has no VRP"),
    r"not a JSON object": ("NotJson", "the file is not JSON"),
    r"a JSON array, .*": ("JsonArray", "the file is a JSON array"),
    r"roas: missing": ("RoasMissing", "the member roas is missing"),
    r"roas: repeated": ("RoasRepeated", "the member roas is there twice"),
    r"roas: wrong kind of value": ("RoasKind", "the member roas is not an array"),
}
RULES = {
    "BadAsNumber": "RFC 6793, 2",
    "HostBits": "RFC 4632, 3.1; RFC 4291, 2.3",
    "BadPrefix": "RFC 4632, 3.1; RFC 4291, 2.3",
    "MaxLengthTooLarge": "RFC 9582, 4.3.2",
    "MaxLengthTooSmall": "RFC 9582, 4.3.2",
    "NotUtf8": "RFC 3629, 3",
    "NotJson": "RFC 8259, 2",
}
FLAGS = {
    "Decision": Flag("the result is this project's own decision", OWN, link=LINK),
    "Csv": Flag("the file has comma separated values", OWN),
    "Json": Flag("the file is JSON", "RFC 8259"),
    "Read": Flag("all VRPs can be read", OWN),
    "Header": Flag("a line names the columns", OWN),
    "NoHeader": Flag("no line names the columns", OWN),
    "CrLf": Flag("lines end in CR LF", OWN),
    "NoLineEnd": Flag("the last line has no line end", OWN),
    "BlankLine": Flag("a line is blank", OWN),
    "Quoted": Flag("a field is in quotes", OWN),
    "OtherMembers": Flag("there are members that are ignored", OWN),
    "IPv6": Flag("there are VRPs of IPv6", OWN),
    "Repeated": Flag("a VRP is listed twice", OWN),
    **{name: Flag(said, RULES.get(name, OWN), True, None if name in RULES else LINK) for name, said in FAULTS.values()},
}
VRP, ITEM = "AS64496,192.0.2.0/24,24", '{"asn":64496,"prefix":"192.0.2.0/24","maxLength":24}'
HEADS = (
    "ASN,IP Prefix,Max Length",
    "ASN,IP Prefix,Max Length,Trust Anchor",
    "URI,ASN,IP Prefix,Max Length,Not Before,Not After",
    "ASN,Prefix,Max prefix length",
    "ASN,IP Prefix,Max Length,Trust Anchor,Expires",
)


def fault_of(reason: str) -> str:
    """Returns the name of a reason."""
    for pattern, (name, _) in FAULTS.items():
        if re.fullmatch(pattern, reason, re.DOTALL):
            return name
    raise Difference(f"vrp_files: no name of {reason!r}")


def flags_of(octets: bytes, vrps: list[Any]) -> Iterator[str]:
    """Yields the flags of a file that is read."""
    text = octets.decode("utf-8", "replace")
    is_json = text.lstrip("\t\n\f\r ").startswith("{")
    yield from ("Json" if is_json else "Csv", "Read")
    if is_json:
        if {*re.findall(r'"(\w+)"\s*:', text)} - {"roas", "asn", "prefix", "maxLength"}:
            yield "OtherMembers"
    else:
        yield "Header" if re.search("Max (Length|prefix length)", text) else "NoHeader"
        lines = text.split("\n")
        found = {"CrLf": "\r\n" in text, "NoLineEnd": bool(lines[-1]), "Quoted": '"' in text}
        found["BlankLine"] = any(not it.strip() for it in lines[:-1])
        yield from (name for name, is_so in found.items() if is_so)
    texts = [str(vrp(it)) for it in vrps]
    if any(":" in it.prefix.prefix.text() for it in vrps):
        yield "IPv6"
    if len({*texts}) < len(texts):
        yield "Repeated"


def case_of(octets: bytes, stored: str | None = None) -> Case:
    """Returns the case of a file."""
    found = reference.vrps_of_file(octets)
    if stored is not None:
        said = (
            f"error: {found.fault}" if found.fault else ", ".join(f"{it.prefix.text()} AS{it.asn}" for it in found.vrps)
        )
        agree("rows_claims", f"octets {octets.hex()}", stored, said)
    flags = {*flags_of(octets, found.vrps), "Decision"}
    if found.fault is None:
        expected: dict[str, Any] = {"result": "valid", "vrps": [vrp(it) for it in found.vrps]}
    else:
        name = fault_of(found.fault)
        expected = {"result": "invalid", "fault": name, "reason": found.fault}
        flags = {name, *(flags & {"Csv", "Json", "Decision"})} - (
            {"Csv", "Json"} if name in ("NoVrp", "JsonArray") else set()
        )
    try:
        asked: dict[str, Any] = {"text": octets.decode("utf-8")}
    except UnicodeDecodeError:
        asked = {"octets": octets.hex()}
    return Case(ordered(flags, FLAGS), asked, expected)


def stored() -> Iterator[Case]:
    """Yields the cases of the files in rows."""
    rows = Rows("rows_claims")
    for text, answer in rows.of("vrps"):
        octets = text.replace("|", "\n").encode()
        if len(octets) <= 700:
            yield case_of(octets, answer)
    for text, answer in rows.of("octets"):
        try:
            octets = bytes.fromhex(text)
        except ValueError:
            continue
        yield case_of(octets, answer)


def made_lines() -> Iterator[str]:
    """Yields files of lines."""
    for head in HEADS:
        names = head.split(",")
        row = {
            "ASN": "AS64496",
            "IP Prefix": "192.0.2.0/24",
            "Prefix": "192.0.2.0/24",
            "Max Length": "24",
            "Max prefix length": "24",
        }
        good = ",".join(row.get(it, "x") for it in names)
        yield from (
            f"{head}\n{good}\n",
            f"{head}\r\n{good}\r\n",
            f"{head}\n\n{good}\n",
            f"{head}\n{good}",
            f"{head}\n",
            head,
        )
        yield from (
            f"{head}\n{good}\n{good}\n",
            f"{head}\n{good},y\n",
            f"{head}\n{good},\n",
            f"{head}\n{VRP.split(',')[0]}\n",
        )
        for wrong in (
            "192.0.2.1/24",
            "192.0.2.0/33",
            "192.0.2.0",
            "2001:db8::/129",
            "198.51.100.128/24",
            "2001:db8::1/32",
        ):
            yield f"{head}\n{good}\n" + good.replace("192.0.2.0/24", wrong) + "\n"
        for wrong in ("23", "33", "", "-1", "+24", "x", "256", "24.0", "129"):
            yield f"{head}\n" + ",".join(
                {"Max Length": wrong, "Max prefix length": wrong}.get(it, row.get(it, "x")) for it in names
            ) + "\n"
        for wrong in ("AS", "64496x", "4294967296", "-1", "", "AS1.1"):
            yield f"{head}\n{good}\n" + good.replace("AS64496", wrong) + "\n"
        yield f"{head}\n" + ",".join(f'"{row.get(it, "x")}"' for it in names) + "\n"
        for empty in ("", " ", '""'):
            lengths = {"Max Length": empty, "Max prefix length": empty}
            yield f"{head}\n" + ",".join(lengths.get(it, row.get(it, "x")) for it in names) + f"\n{good}\n"
        yield from (f"{head.lower()}\n{good}\n", f"# {head.replace(',', ' ')}\n{head}\n{good}\n")
    for at, wide in enumerate(("10.0.0.0/8", "192.0.2.0/24", "2001:db8::/32", "198.51.100.7/32")):
        line = f"AS{64496 + at},{wide},{wide.partition('/')[2]}"
        yield from (
            f"{line}\n",
            f"{line},ripe\r\n{VRP}\r\n",
            f"\n{line}\n \n",
            f"{line}\n{VRP}",
            f'"{VRP.replace(",", chr(34) + "," + chr(34))}"\n{line}\n',
        )
    yield from (
        "",
        "\n",
        "\n\n",
        "\r\n",
        " ",
        "\t\n",
        " \n ",
        "\n\n\n",
        "[",
        "[]",
        " [1]",
        "[" + ITEM + "]",
        "\n[\n",
        "[{}]",
        "[[]]",
        "[null]",
        "\t[",
        "\r\n[",
    )


def made_json() -> Iterator[str]:
    """Yields files of JSON."""
    for value in ("{}", "null", "1", '"x"', "true", ITEM, "1.5", "-1", "false", '""', '{"roas":[]}'):
        yield from (
            f'{{"roas":{value}}}',
            f'{{"roas":[{value}]}}',
            f'{{"roas":[{ITEM}],"roas":{value}}}',
            f'{{"metadata":{value}}}',
        )
        yield from (
            f'{{"roas":[{ITEM}],"metadata":{value}}}',
            f'{{"roas":[{ITEM}{value}]}}',
            f'{{"Roas":[{ITEM}],"x":{value}}}',
        )
    for name, good in (("asn", "64496"), ("prefix", '"192.0.2.0/24"'), ("maxLength", "24")):
        member = f'"{name}":{good}'
        for other in ("null", "true", "[24]", '{"x":1}', "24.5", "2.4e1", "-1", '"x"', "99999999999", '""', "1e400"):
            yield '{"roas":[' + ITEM.replace(member, f'"{name}":{other}') + "]}"
            yield '{"roas":[' + ITEM.replace(member, f'{member},"{name}":{other}') + "]}"
        yield from (
            '{"roas":[' + ITEM.replace(member, it) + "]}"
            for it in (f'"{name} ":{good}', f'"{name.upper()}":{good}', f'{member},"ta":"x"')
        )
        yield '{"roas":[' + re.sub(",,", ",", ITEM.replace(member, "")).replace("{,", "{").replace(",}", "}") + "]}"
    for prefix, most in (
        ("192.0.2.0/24", 23),
        ("192.0.2.0/24", 33),
        ("2001:db8::/32", 31),
        ("2001:db8::/32", 129),
        ("10.1.0.0/8", 8),
        ("10.0.0.0/8", 7),
    ):
        yield f'{{"roas":[{ITEM},{{"asn":"AS64496","prefix":"{prefix}","maxLength":{most}}}]}}'


def files() -> list[VectorFile]:
    """Returns the file of vectors."""
    file = VectorFile(
        "vrp_files",
        "files of VRPs that validators write, as CSV and JSON",
        [
            "input.text is the file. input.octets is there in its place if the file is not UTF-8, in hexadecimal.",
            "expected.vrps are its VRPs in their order.",
            "No standard describes these files. Each result is this project's own decision.",
            "expected.fault and expected.reason are this project's: any refusal agrees.",
        ],
        FLAGS,
        [name for name, _ in FAULTS.values()],
    )
    for case in (
        *stored(),
        *map(case_of, (it.encode() for it in (*made_lines(), *made_json()))),
        *map(case_of, made_octets()),
    ):
        file.add(case)
    return [file]


def made_octets() -> Iterator[bytes]:
    """Yields files that are not UTF-8."""
    for wrong in (b"\xff", b"\xc3", b"\xed\xa0\x80", b"\xf5\x80\x80\x80", b"\xc0\x80", b"\x80"):
        yield from (
            f"{VRP}\n{VRP},".encode() + wrong + b"\n",
            wrong + b"\n",
            b'{"x":"' + wrong + f'","roas":[{ITEM}]}}'.encode(),
        )
