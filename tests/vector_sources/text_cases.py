"""The cases of text_as.json and text_ip.json: lists of blocks as texts."""

import re
from collections.abc import Iterator

from . import by_reference as reference
from .by_reference import Fault
from .cases import Case, Difference, Flag, Rows, VectorFile, agree, is_chosen, ordered
from .der_walk import DECISION

# Texts of faults, and the names that the vectors have for them.
AS_FAULTS = {
    "Bad AS number. Expected format: AS#": "BadAsNumber",
    "Bad AS range. Expected format: AS#-AS#": "BadAsRange",
}
IP_FAULTS = {
    "invalid IPv4 address syntax": "BadIpv4Address",
    "invalid IPv6 address syntax": "BadIpv6Address",
    "bad prefix length: cannot parse integer from empty string": "EmptyPrefixLength",
    "bad prefix length: invalid digit found in string": "BadPrefixLength",
    "bad prefix length: number too large to fit in target type": "PrefixLengthTooLarge",
    "address family mismatch": "FamilyMismatch",
    "invalid address range": "ReversedRange",
}
OWN = "docs/DECISIONS.md, Conformance vectors"
OF_LISTS = {
    "Decision": Flag("the result is this project's own decision", OWN, link=DECISION),
    "List": Flag("the text is a list of blocks with commas between them", OWN),
    "EmptyList": Flag("the text has no block", OWN),
    "EmptyElement": Flag("there is nothing in front of a comma, or after it", OWN),
    "WhiteSpace": Flag("white space is around a block", OWN),
    "UnicodeSpace": Flag("white space that is not ASCII is around a block", OWN),
    "Unsorted": Flag("the blocks are not in ascending order", OWN),
    "Overlap": Flag("two blocks overlap", OWN),
    "Adjacent": Flag("two blocks touch", OWN),
    "PlusSign": Flag("a number begins with a plus sign", OWN),
    "LeadingZeros": Flag("a number begins with a zero", OWN),
}
AS_FLAGS = {
    "Asn": Flag("a block is one AS number", "RFC 5396, 2"),
    "Range": Flag("a block is a range of AS numbers", OWN),
    "Extreme": Flag("a block has AS 0 or AS 4294967295", "RFC 6793, 2"),
    "NoLetters": Flag("an AS number has no letters in front", "RFC 5396, 2"),
    "LetterCase": Flag("the letters in front of an AS number are not AS", OWN),
    "OneNumberRange": Flag("a range has one AS number", OWN),
    **OF_LISTS,
    "Asdot": Flag("an AS number is written with a dot", "RFC 5396, 2", True),
    "AsTooLarge": Flag("an AS number is above 4294967295", "RFC 6793, 2", True),
    "ReversedRange": Flag("the first number of a range is above its last", OWN, True),
    "BadNumber": Flag("a text that should be an AS number is not one", "RFC 5396, 2", True),
    "BadRange": Flag("a range does not have two AS numbers", OWN, True),
}
IP_FLAGS = {
    "IPv4": Flag("the list is of IPv4 addresses", "RFC 3986, 3.2.2"),
    "IPv6": Flag("the list is of IPv6 addresses", "RFC 4291, 2.2"),
    "Address": Flag("a block is one address", "RFC 4291, 2.2"),
    "Prefix": Flag("a block is a prefix", "RFC 4632, 3.1; RFC 4291, 2.3"),
    "Range": Flag("a block is a range of addresses", OWN),
    "RangeIsPrefix": Flag("a range is a prefix, and is printed as one", OWN),
    "Extreme": Flag("a block has the first or the last address", "RFC 4291, 2.2"),
    "ZeroCompression": Flag("groups of zeros are written as ::", "RFC 4291, 2.2; RFC 5952, 4.2"),
    "Ipv4InIpv6": Flag("an IPv6 address ends as an IPv4 address", "RFC 4291, 2.2"),
    "Ipv4Mapped": Flag("an IPv6 address is an IPv4-mapped one, and is printed with a dotted end", "RFC 5952, 5"),
    "UpperCase": Flag("hexadecimal digits are capital letters", "RFC 4291, 2.2; RFC 5952, 4.3"),
    "ZerosInGroup": Flag("a group of an IPv6 address begins with a zero", "RFC 4291, 2.2; RFC 5952, 4.1"),
    **OF_LISTS,
    "HostBits": Flag("bits after the length of a prefix are set, and are cleared", OWN),
    "ZeroOctet": Flag("a number of an IPv4 address begins with a zero", "RFC 3986, 3.2.2", True),
    "OctetTooLarge": Flag("a number of an IPv4 address is above 255", "RFC 3986, 3.2.2", True),
    "OctetCount": Flag("an IPv4 address does not have four numbers", "RFC 3986, 3.2.2", True),
    "GroupTooLong": Flag("a group of an IPv6 address has more than four digits", "RFC 4291, 2.2", True),
    "TwoCompressions": Flag("an IPv6 address has :: twice", "RFC 4291, 2.2", True),
    "Zone": Flag("an address has a zone", "RFC 4291, 2.2", True),
    "BadAddress": Flag("an address has another fault", "RFC 4291, 2.2; RFC 3986, 3.2.2", True),
    "NoLength": Flag("a prefix has nothing after its slash", "RFC 4632, 3.1; RFC 4291, 2.3", True),
    "LengthTooLarge": Flag("the length of a prefix is above 32 or 128", "RFC 4632, 3.1; RFC 4291, 2.3", True),
    "BadLength": Flag("the length of a prefix is not a decimal number", "RFC 4632, 3.1; RFC 4291, 2.3", True),
    "OtherFamily": Flag("a block is of the other family", OWN, True),
    "ReversedRange": Flag("the first address of a range is above its last", OWN, True),
}
DECIDED = {
    "EmptyList",
    "EmptyElement",
    "WhiteSpace",
    "UnicodeSpace",
    "PlusSign",
    "LeadingZeros",
    "HostBits",
    "LetterCase",
    "Asdot",
    "OneNumberRange",
    "List",
    "Range",
    "RangeIsPrefix",
}
HEADER = [
    "input.text is a list of blocks. A comma separates two blocks.",
    "expected.result is valid or invalid.",
    "expected.text is the canonical list of the same resources, with a comma and a space between two blocks.",
    "expected.fault and expected.reason are this project's: any refusal agrees.",
]
LONGEST = 300
# The words of rows whose texts are lists of a kind, and those of either family.
OF_EITHER = ("ipblock", "rprefix", "rrange", "relaxed")
WORDS = {
    "as": ("asn", "asblock"),
    "v4": ("addr4", "v4block", "rprefix4", "rrange4", *OF_EITHER),
    "v6": ("addr6", "v6block", "rprefix6", "rrange6", *OF_EITHER),
}
# The percentage of the rows `text addr6` that are taken.
ADDRESSES_TAKEN = 12


def flags_of_list(kind: str, text: str) -> set[str]:
    """Returns the flags of a list as a whole."""
    parts, flags = text.split(","), set()
    elements = list(reference.elements(text))
    if len(parts) > 1:
        flags.add("List")
    if not elements:
        flags.add("EmptyList")
    if len(elements) < len(parts) > 1:
        flags.add("EmptyElement")
    spaces = [
        it
        for at, part in enumerate(parts)
        for it in re.findall(r"^\s+|\s+$", part)
        if not (at and it == " " and part[0] == " ")
    ]
    if spaces:
        flags.add("WhiteSpace" if "".join(spaces).isascii() else "UnicodeSpace")
    try:
        bounds = [reference.bounds(kind, it) for it in elements]
    except Fault:
        return flags
    if bounds != sorted(bounds):
        flags.add("Unsorted")
    last: int | None = None
    for low, high in sorted(bounds):
        if last is not None and low <= last + 1:
            flags.add("Overlap" if low <= last else "Adjacent")
        last = high if last is None else max(last, high)
    return flags


def flags_of_asn(text: str) -> Iterator[str]:
    """Yields the flags of an AS number."""
    letters = re.match(r"(?i)as", text)
    digits = text[2:] if letters else text
    yield "NoLetters" if not letters else "LetterCase" if letters[0] != "AS" else "Asn"
    if not re.fullmatch(r"\+?[0-9]+", digits):
        yield "Asdot" if re.fullmatch(r"[0-9]+\.[0-9]+", digits) else "BadNumber"
        return
    if digits.startswith("+"):
        yield "PlusSign"
    if digits.lstrip("+").startswith("0") and digits.lstrip("+") != "0":
        yield "LeadingZeros"
    if int(digits) > 2**32 - 1:
        yield "AsTooLarge"
    if int(digits) in (0, 2**32 - 1):
        yield "Extreme"


def flags_of_as(text: str) -> Iterator[str]:
    """Yields the flags of an AS block."""
    if "-" not in text:
        yield from ("Asn", *flags_of_asn(text))
        return
    first, _, last = text.partition("-")
    found = [*flags_of_asn(first), *flags_of_asn(last)]
    yield "Range"
    yield from ("BadRange" if it == "BadNumber" else it for it in found if it != "Asn")
    numbers = [
        int(re.sub(r"(?i)^as", "", it)) for it in (first, last) if not {"BadNumber", "Asdot"} & {*flags_of_asn(it)}
    ]
    if len(numbers) == 2 and numbers[0] >= numbers[1]:
        yield "ReversedRange" if numbers[0] > numbers[1] else "OneNumberRange"


def flags_of_v4(text: str) -> Iterator[str]:
    """Yields the flags of an IPv4 address."""
    octets = text.split(".")
    if "%" in text:
        yield "Zone"
    elif not all(re.fullmatch("[0-9]+", it) for it in octets):
        yield "BadAddress"
    elif len(octets) != 4:
        yield "OctetCount"
    if any(re.fullmatch("0[0-9]+", it) for it in octets):
        yield "ZeroOctet"
    if any(re.fullmatch("[1-9][0-9]*", it) and int(it) > 255 for it in octets):
        yield "OctetTooLarge"


def flags_of_v6(text: str) -> Iterator[str]:
    """Yields the flags of an IPv6 address."""
    if "%" in text:
        yield "Zone"
    if text.count("::") > 1:
        yield "TwoCompressions"
    elif "::" in text:
        yield "ZeroCompression"
    if re.search("[A-F]", text):
        yield "UpperCase"
    groups = re.split(":+", text)
    if any(re.fullmatch("0[0-9a-fA-F]{1,3}", it) for it in groups):
        yield "ZerosInGroup"
    if any(re.fullmatch("[0-9a-fA-F]{5,}", it) for it in groups):
        yield "GroupTooLong"
    if "." in groups[-1]:
        yield "Ipv4InIpv6"
        yield from (it for it in flags_of_v4(groups[-1]) if it != "Zone")


def flags_of_ip(kind: str, text: str) -> Iterator[str]:
    """Yields the flags of a block of addresses of a family."""
    size, flags_of_address = (32, flags_of_v4) if kind == "v4" else (128, flags_of_v6)
    if (":" in text) != (kind == "v6"):
        yield "OtherFamily" if (":" if kind == "v4" else ".") in text else "BadAddress"
        return
    if "/" in text:
        address, _, length = text.partition("/")
        yield from ("Prefix", *flags_of_address(address), *flags_of_length(length, size))
    elif "-" in text:
        yield from ("Range", *(it for part in text.split("-", 1) for it in flags_of_address(part)))
    else:
        yield from ("Address", *flags_of_address(text))
    try:
        low, high = reference.bounds(kind, text)
    except Fault as fault:
        if str(fault) == "invalid address range":
            yield "ReversedRange"
        return
    if low == 0 or high == 2**128 - 1:
        yield "Extreme"
    if kind == "v6" and low >> 32 == 0xFFFF == high >> 32:
        yield "Ipv4Mapped"
    if "-" in text and "-" not in reference.print_set(kind, [(low, high)]):
        yield "RangeIsPrefix"
    if "/" in text and reference.bounds(kind, text.partition("/")[0])[0] != low:
        yield "HostBits"


def flags_of_length(text: str, size: int) -> Iterator[str]:
    """Yields the flags of the length of a prefix."""
    if not text:
        yield "NoLength"
    elif not re.fullmatch(r"\+?[0-9]+", text):
        yield "BadLength"
    elif int(text) > size:
        yield "LengthTooLarge"
    if text.startswith("+"):
        yield "PlusSign"
    if re.fullmatch(r"\+?0[0-9]+", text):
        yield "LeadingZeros"


def case_of(kind: str, text: str) -> Case:
    """Returns the case of a list.

    A list with a flag for a fault has to be refused. A list that is refused has to have such a flag.
    """
    known, faults = (AS_FLAGS, AS_FAULTS) if kind == "as" else (IP_FLAGS, IP_FAULTS)
    flags = flags_of_list(kind, text)
    for element in reference.elements(text):
        flags |= {*(flags_of_as(element) if kind == "as" else flags_of_ip(kind, element))}
    asked = {"text": text} if kind == "as" else {"family": kind, "text": text}
    flags |= set() if kind == "as" else {"IPv4" if kind == "v4" else "IPv6"}
    broken = {it for it in flags if known[it].breaks}
    try:
        expected = {"result": "valid", "text": reference.print_set(kind, reference.read_set(kind, text))}
    except Fault as fault:
        expected = {"result": "invalid", "fault": faults[str(fault)], "reason": str(fault)}
        if not broken:
            broken = {"BadAddress"}
        flags = broken | (flags & {"IPv4", "IPv6", "Asdot"})
    if (expected["result"] == "invalid") != bool(broken):
        raise Difference(f"{kind} {text!r}: {expected}, and it breaks {sorted(broken)}")
    if flags & DECIDED or len(broken) > 1 or any(known[it].section == OWN for it in broken):
        flags.add("Decision")
    return Case(ordered(flags, known), asked, expected)


AS_TEXTS = (
    *(
        f"{it}"
        for it in (
            "1.0",
            "0.1",
            "1.10",
            "AS1.10",
            "as65535.65535",
            "64496.0",
            "AS0.64496",
            "2.3-2.4",
            "AS1.1-AS1.2",
            "10.10",
            "AS64.5",
        )
    ),
    *(f"AS{it}-AS{it}" for it in (0, 1, 7, 64496, 65535, 65536, 4200000000, 2**32 - 1, 23456, 64511, 5)),
    *(
        f"AS{high}-AS{low}"
        for low, high in ((1, 2), (0, 2**32 - 1), (64496, 64511), (7, 8), (5, 50), (65535, 65536), (1, 65536))
    ),
    *(
        f"{it}AS64496"
        for it in ("", " ", "\t", "  ", ", ", ",", "\u00a0", "\u3000", "\u2003", "\u2009", "\u0085", "\u1680")
    ),
    *("," * it for it in range(12)),
    *(" " * it for it in range(4)),
    *(" ," * it for it in range(1, 6)),
    *(f"{low}-{high}" for low in ("", "AS", "x", "AS1") for high in ("", "AS", "x", "AS9x")),
    *(f"AS{2**32 + it}" for it in range(12)),
    *(f"AS1-AS{2**32 + it}" for it in (0, 5, 2**33)),
    *(f"AS{it}, AS{it + 1}" for it in (0, 5, 64496, 65535)),
    *(f"AS{it}-AS{it + 9}, AS{it + 10}-AS{it + 12}" for it in (1, 64496, 65530)),
    *(f"AS64496\u00a0,{it}\u3000AS64500" for it in ("", " ", "\u2003", "\u2028", "\u205f")),
)
V4_TEXTS = (
    "10.0.0.0/8, 12.0.0.0/8",
    "12.0.0.0/8, 10.0.0.0/8",
    "10.0.0.0/9, 10.128.0.0/9",
    "10.0.0.0/8, 10.0.0.0/8",
    "10.0.0.0/8,,",
    "",
    *(f"10.0.0.{it}/8" for it in range(1, 8)),
    *(f"192.0.2.0/{it}" for it in (33, 34, 64, 128, 255, 256, 1000, "x", "8x", "-1", " 8", "0x8", "8.0", "²")),
    *(f"{it}.0.2.1" for it in (256, 300, 999, 1000, "01", "007", "00", "0192", "0x1", "1e", "-1", "", " 1")),
    *(".".join("10" for _ in range(it)) for it in (1, 2, 3, 5, 6)),
    "10.0.0/24",
    "10/8",
    "10.0.0.0.0/8",
    "10.0.0.0.",
    ".10.0.0.0",
    "172.16/12",
    *(f"10.0.0.{it}-10.0.0.{it - 1}" for it in (1, 2, 9, 100, 255)),
    "10.0.1.0-10.0.0.255",
    "255.255.255.255-0.0.0.0",
    *(f"{it}0.0.0.0/" for it in (1, 2, 3)),
    *(" " * it + "," for it in range(4)),
    *(f"{it}.0.0.0/8, {it + 1}.0.0.0/8" for it in (10, 20, 30)),
    *(f"10.0.0.1%{it}" for it in ("eth0", "1", "")),
    *(f"10.0.0.0/{it}" for it in ("", "+", "+8", "08", "+08", "008", "+0")),
    *(f"{it}10.0.0.0/8" for it in ("\t", "  ", "\u00a0", "\u3000", "\u2003", "\n", "\u0085")),
    "::1",
    "10.0.0.0/8, 2001:db8::/32",
    "::ffff:10.0.0.1",
    *(f"10.0.0.0-10.0.{it}.255" for it in (0, 1, 3, 7, 15)),
    "0.0.0.0-255.255.255.255",
    "10.0.0.0-10.0.0.0",
)
V6_TEXTS = (
    *(f"{it}::/" for it in ("", "1", "fe80", "2001:db8", "ff00")),
    " ,",
    "  , ",
    ",,",
    *(f"2001:db8:{it}::/48, 2001:db8:{it + 1}::/48" for it in (0, 1, 2)),
    "2001:db8::/32, 2001:db9::/32",
    "2001:db8::/33, 2001:db8:8000::/33",
    "2001:db8::/32, 2001:db8::/48",
    "",
    ", ,",
    "10.0.0.1",
    "10.0.0.0/8",
    "10.0.0.0-10.0.0.9",
    "::1, 10.0.0.1",
    "192.0.2.0/24",
    "192.0.2.1",
    *(f"2001:db8::{it}/32" for it in range(1, 8)),
    *(f"2001:db8::/{it}" for it in (129, 130, 200, 255, 256, 999, "x", "", "+32", "032", "-1", "3 2")),
    *(f"2001:db8::1%{it}" for it in ("eth0", "1", "en1", "lo", "", "5", "eth0.1", "a", "b", "c")),
    "fe80::1%eth0/64",
    "fe80::%1-fe80::9",
    *(
        f"::{it}"
        for it in ("12345", "00000", "0001f", "fffff", "10000", "abcde", "123456", "00001", "ffff0", "1ffff", "0ffff")
    ),
    *(f"{it}::1::2" for it in range(1, 6)),
    "::1::",
    "1::2::3",
    "::::",
    "::1::/64",
    "a::b::c",
    "2001::db8::",
    "fe80::1::1-fe80::9",
    *(f"::ffff:192.0.2.{it}" for it in (1, "01", 256, "1.1", "x", "", "300", "001", "1000", "999")),
    "::ffff:10.0.0",
    "::1.2.3.4.5",
    "::ffff:010.0.0.1",
    *(f"::{it}-::{it - 1}" for it in range(1, 8)),
    "2001:db9::-2001:db8::",
    "1:2:3:4:5:6:7",
    "1:2:3:4:5:6:7:8:9",
    ":1",
    "1:",
    ":::",
    "g::",
    *(f"{it}2001:db8::/32" for it in ("\t", "  ", "\u00a0", "\u3000", "\u2003")),
    *(f"2001:db8::-2001:db8::{it}" for it in ("0", "1", "3", "7", "f", "ff")),
    "::-ffff:ffff:ffff:ffff:ffff:ffff:ffff:ffff",
    "2001:DB8::-2001:db8:0:ffff:ffff:ffff:FFFF:ffff",
)


def stored(kind: str) -> Iterator[str]:
    """Yields the texts that rows read as a list, as a block or as an address of a kind."""
    lines, values = Rows("rows_sets"), Rows("rows_values")
    for text, answer in lines.of(f"norm {kind}"):
        agree(lines.name, f"norm {kind} {text}", answer, reference.line_answer(f"norm {kind} {text}".encode()))
        yield text
    for word in WORDS[kind]:
        for text, answer in values.of(f"text {word}"):
            if word != "addr6" or is_chosen(text, ADDRESSES_TAKEN):
                agree(values.name, f"text {word} {text}", answer, reference.value_answer(f"text {word} {text}"))
                if word not in OF_EITHER or (":" in text) == (kind == "v6"):
                    yield text


def files() -> list[VectorFile]:
    """Returns both files."""
    numbers = VectorFile(
        "text_as", "lists of AS blocks as texts (RFC 5396; docs/DECISIONS.md)", HEADER, AS_FLAGS, [*AS_FAULTS.values()]
    )
    addresses = VectorFile(
        "text_ip",
        "lists of blocks of addresses as texts (RFC 4291, RFC 5952; docs/DECISIONS.md)",
        HEADER,
        IP_FLAGS,
        [*IP_FAULTS.values()],
    )
    for file, kind, more in ((numbers, "as", AS_TEXTS), (addresses, "v4", V4_TEXTS), (addresses, "v6", V6_TEXTS)):
        for text in (*stored(kind), *more):
            if len(text) <= LONGEST:
                file.add(case_of(kind, text))
    return [numbers, addresses]
