"""The cases of set_operations.json, verify_path.json and prefix_cover.json."""

import random
from collections.abc import Iterator
from typing import Any

from . import by_reference as reference
from .by_reference import INHERIT, Fault, Refused, Set, Step
from .cases import Case, Flag, Rows, VectorFile, agree, is_chosen, ordered
from .der_walk import DECISION

KINDS = ("as", "v4", "v6")
KIND_FLAGS = {
    "AsNumbers": Flag("AS numbers", "RFC 3779, 3"),
    "IPv4": Flag("IPv4 addresses", "RFC 3779, 2"),
    "IPv6": Flag("IPv6 addresses", "RFC 3779, 2"),
}
OF_KIND = dict(zip(KINDS, KIND_FLAGS, strict=True))
SET_FLAGS = KIND_FLAGS | {
    "Union": Flag("the resources in one operand or in both", "none"),
    "Intersection": Flag("the resources in both operands", "none"),
    "Difference": Flag("the resources in the left operand alone", "none"),
    "Contains": Flag("whether the left operand has all resources of the right one", "RFC 3779, 2.3 and 3.3"),
    "Equal": Flag("whether both operands have the same resources", "none"),
    "Empty": Flag("an operand is empty", "none"),
    "Same": Flag("both operands have the same resources", "none"),
    "Disjoint": Flag("the operands have nothing in common", "none"),
    "Inside": Flag("one operand is inside the other", "none"),
    "Crossing": Flag("each operand has resources that the other has, and others", "none"),
    "Touching": Flag("a block of one operand begins where a block of the other ends", "none"),
    "NotMerged": Flag(
        "blocks of an operand overlap or touch, or are not in ascending order", "RFC 3779, 2.2.3.6 and 3.2.3.4"
    ),
    "Extreme": Flag("an operand has the first or the last resource of its kind", "none"),
}
OPERATIONS = ("union", "intersection", "difference", "contains", "equal")
PATH_FLAGS = KIND_FLAGS | {
    "Decision": Flag(
        "the result is this project's own decision", "docs/DECISIONS.md, Conformance vectors", link=DECISION
    ),
    "NoCertificate": Flag("the path has no certificate below the trust anchor", "RFC 6487, 7.2"),
    "OneCertificate": Flag("the path has one certificate", "RFC 6487, 7.2"),
    "LongPath": Flag("the path has two certificates or more", "RFC 6487, 7.2"),
    "Inherit": Flag("a certificate inherits", "RFC 3779, 2.2.3.5 and 3.2.3.3"),
    "Missing": Flag("a certificate does not have the resources of this kind", "RFC 3779, 2.3 and 3.3"),
    "Refuse": Flag("a certificate that overclaims is refused", "RFC 6487, 7.2"),
    "Trim": Flag("what a certificate overclaims is left out", "RFC 8360, 4"),
    "Mixed": Flag(
        "the path has a list with the policy refuse, and one with the policy trim",
        "docs/DECISIONS.md, Conformance vectors",
    ),
    "Nested": Flag("each certificate lists resources of its issuer alone", "RFC 6487, 7.2"),
    "Overclaim": Flag("a certificate lists resources that its issuer does not have", "RFC 6487, 7.2", True),
    "NothingLeft": Flag("nothing is left of the resources", "RFC 3779, 2.3 and 3.3"),
    "EmptyAnchor": Flag("the trust anchor has nothing of this kind", "RFC 3779, 2.3 and 3.3"),
}
COVER_FLAGS = {it: KIND_FLAGS[it] for it in ("IPv4", "IPv6")} | {
    "OnePrefix": Flag("one prefix has all addresses", "RFC 4632, 3.1"),
    "OneRange": Flag("the addresses are one range, which several prefixes cover", "RFC 4632, 3.1"),
    "SeveralRanges": Flag("the addresses are several ranges", "RFC 4632, 3.1"),
    "HostRoute": Flag("a prefix of the cover is one address", "RFC 4632, 3.1"),
    "NoneOrAll": Flag("no address of the family, or all of them", "RFC 4632, 3.1"),
    "Extreme": Flag("a block has the first or the last address", "RFC 4632, 3.1"),
    "NotMerged": Flag("blocks overlap or touch, or are not in ascending order", "RFC 3779, 2.2.3.6"),
    "Longest": Flag("the cover has as many prefixes as one range can need, or nearly", "RFC 4632, 3.1"),
}
LARGEST = 30


def blocks_of(kind: str, text: str) -> list[str] | None:
    """Returns the blocks of a list in its order, or None if the text is not a list or the list is long."""
    try:
        blocks = [reference.block_text(kind, it) for it in reference.elements(text)]
    except Fault:
        return None
    return blocks if len(blocks) <= LARGEST else None


def limits(kind: str) -> tuple[int, int]:
    """Returns the first and the last number of a kind."""
    return 0, (2**32 if kind == "as" else 2**128) - 1


def is_extreme(kind: str, numbers: Set) -> bool:
    """Returns whether a set has the first or the last number."""
    first, last = limits(kind)
    return bool(numbers) and (numbers[0][0] == first or numbers[-1][1] == last)


def is_merged(kind: str, blocks: list[str]) -> bool:
    """Returns whether blocks ascend and neither overlap nor touch."""
    return [reference.bounds(kind, it) for it in blocks] == reference.read_set(kind, ", ".join(blocks))


def relation(left: Set, right: Set) -> Iterator[str]:
    """Yields the flags of how two sets lie."""
    if not left or not right:
        yield "Empty"
    elif left == right:
        yield "Same"
    elif not reference.meets(left, right):
        yield "Disjoint"
    elif reference.has_all(left, right) or reference.has_all(right, left):
        yield "Inside"
    else:
        yield "Crossing"
    ends = {high + 1 for _, high in left}, {high + 1 for _, high in right}
    if ends[0] & {low for low, _ in right} or ends[1] & {low for low, _ in left}:
        yield "Touching"


def operation_case(operation: str, kind: str, left: list[str], right: list[str]) -> Case:
    """Returns the case of an operation on two lists of blocks."""
    a, b = (reference.read_set(kind, ", ".join(it)) for it in (left, right))
    flags = {OF_KIND[kind], operation.capitalize(), *relation(a, b)}
    if not is_merged(kind, left) or not is_merged(kind, right):
        flags.add("NotMerged")
    if is_extreme(kind, a) or is_extreme(kind, b):
        flags.add("Extreme")
    if operation in ("contains", "equal"):
        expected: dict[str, Any] = {"holds": reference.has_all(a, b) if operation == "contains" else a == b}
    else:
        expected = {"text": reference.print_set(kind, getattr(reference, operation)(a, b))}
    asked = {"kind": kind, "left": left, "operation": operation, "right": right}
    return Case(ordered(flags, SET_FLAGS), asked, expected)


def stored_operations() -> Iterator[Case]:
    """Yields the operations of rows on lists that can be read. Their stored answers have to be the reference's."""
    rows = Rows("rows_sets")
    for operation in OPERATIONS:
        for kind in KINDS:
            for text, answer in rows.of(f"{operation} {kind}"):
                left, _, right = text.partition("|")
                lists = blocks_of(kind, left), blocks_of(kind, right)
                if None not in lists:
                    case = operation_case(operation, kind, lists[0] or [], lists[1] or [])
                    found = case.expected.get("text", str(case.expected.get("holds")).lower())
                    agree(rows.name, f"{operation} {kind} {text}", answer, found)
                    yield case


PAIRS = (
    ("", ""),
    ("10-19", ""),
    ("", "10-19"),
    ("10-19", "10-19"),
    ("10-19", "20-29"),
    ("20-29", "10-19"),
    ("10-19", "21-29"),
    ("10-29", "15-19"),
    ("15-19", "10-29"),
    ("10-19", "15-29"),
    ("10-19 30-39", "20-29"),
    ("10-19 30-39", "15-34"),
    ("0-255", "0-127"),
    ("0-127", "128-255"),
    ("10-19 12-15", "19-19"),
    ("30-39 10-19", "0-9"),
    ("10-19 20-29", "10-29"),
    ("5-5 7-7 9-9", "6-6 8-8"),
    ("0-0", "255-255"),
    ("0-63", "64-127"),
)


def made_operations() -> Iterator[Case]:
    """Yields each operation on small sets of each kind, which lie in each way."""
    for kind in KINDS:
        shown = {"as": "AS{}-AS{}", "v4": "10.0.0.{}-10.0.0.{}", "v6": "2001:db8::{:x}-2001:db8::{:x}"}[kind]
        for pair in PAIRS:
            lists = [
                [reference.block_text(kind, shown.format(*map(int, it.split("-")))) for it in part.split()]
                for part in pair
            ]
            yield from (operation_case(it, kind, *lists) for it in OPERATIONS)


def claim_input(kind: str, claim: Any) -> dict[str, Any]:
    """Returns a claim as a member: its text, and its canonical extension if there is one."""
    octets = reference.written(kind, claim)
    return {"claim": reference.print_claim(kind, claim), "octets": octets.hex() or None}


def path_case(kind: str, anchor: Set, steps: list[Step], stored: str | None = None) -> Case:
    """Returns the case of a path."""
    flags = {OF_KIND[kind], ("NoCertificate", "OneCertificate", "LongPath")[min(2, len(steps))]}
    policies = {"Trim" if it.is_trimmed else "Refuse" for it in steps if it.claim not in (None, INHERIT)}
    flags |= policies | ({"Mixed", "Decision"} if len(policies) > 1 else set())
    flags |= {"Inherit" for it in steps if it.claim == INHERIT} | {"Missing" for it in steps if it.claim is None}
    try:
        left = reference.left_by(anchor, steps)
        expected: dict[str, Any] = {"result": "valid", "text": reference.print_set(kind, left)}
        answer = expected["text"]
        if not left:
            flags.add("NothingLeft")
    except Refused as refused:
        text = reference.print_set(kind, refused.excess)
        expected = {"result": "invalid", "certificate": refused.step, "overclaimed": text}
        name = {"as": "AS", "v4": "IPv4", "v6": "IPv6"}[kind]
        answer = f"refused at step {refused.step}: overclaimed {name} resources: {text}"
    if stored is not None:
        agree("rows_sets", f"path {kind}", stored, answer)
    flags.add("Overclaim" if expected["result"] == "invalid" or overclaims(anchor, steps) else "Nested")
    if not anchor:
        flags.add("EmptyAnchor")
    asked = {
        "anchor": claim_input(kind, reference.claim_of(anchor)),
        "certificates": [
            claim_input(kind, it.claim) | {"policy": "trim" if it.is_trimmed else "refuse"} for it in steps
        ],
        "kind": kind,
    }
    return Case(ordered(flags, PATH_FLAGS), asked, expected)


def overclaims(left: Set, steps: list[Step]) -> bool:
    """Returns whether a step lists more than is left, if each step is trimmed."""
    for step in steps:
        if isinstance(step.claim, list) and not reference.has_all(left, step.claim):
            return True
        left = reference.left_by(left, [Step(step.claim, True)])
    return False


def step_of(kind: str, text: str) -> Step | None:
    """Reads a step of a row. Returns None if it is invalid."""
    word, _, listed = text.strip().partition(" ")
    if word in ("inherit", "missing"):
        return None if listed else Step(INHERIT if word == "inherit" else None, False)
    try:
        return (
            Step(reference.claim_of(reference.read_set(kind, listed)), word == "trim")
            if word in ("refuse", "trim")
            else None
        )
    except Fault:
        return None


def stored_paths() -> Iterator[Case]:
    """Yields the cases of the paths in rows that can be read."""
    for kind in KINDS:
        for text, answer in Rows("rows_sets").of(f"path {kind}"):
            first, *parts = text.split("|")
            steps = [step_of(kind, it) for it in parts]
            try:
                anchor = reference.read_set(kind, first)
            except Fault:
                continue
            if None not in steps:
                yield path_case(kind, anchor, [it for it in steps if it], answer)


def made_paths() -> Iterator[Case]:
    """Yields paths of random claims, of one policy or of both."""
    chance = random.Random(6487)
    for at in range(360):
        kind = KINDS[at % 3]
        size, unit = (2**32, 1) if kind == "as" else (2**128, 2**120 if kind == "v4" else 1)
        base = 0 if kind == "v4" else 64496 if kind == "as" else 0x20010DB8 << 96

        def listed(least: int) -> Set:
            points = sorted(chance.sample(range(40), 2 * chance.randint(least, 3)))
            runs = zip(points[::2], points[1::2], strict=True)
            return [(base + low * unit, min(size, base + high * unit) - 1) for low, high in runs]

        anchor, steps = listed(0 if at % 30 == 0 else 1), []
        left = anchor
        for _ in range(at % 5):
            claim: Any = chance.choice([INHERIT, None, "some", "some", "more", "some", "some", "some"])
            if claim in ("some", "more"):
                numbers = listed(1)
                claim = reference.claim_of(numbers if claim == "more" else reference.intersection(left, numbers))
            steps.append(Step(claim, (at // 5) % 3 == 1 or ((at // 5) % 3 == 2 and chance.random() < 0.5)))
            left = reference.left_by(left, [Step(claim, True)])
        yield path_case(
            kind, anchor, [Step(it.claim, it.is_trimmed and it.claim not in (None, INHERIT)) for it in steps]
        )


def cover_case(kind: str, blocks: list[str], stored: str | None = None) -> Case:
    """Returns the case of a cover."""
    blocks = [reference.block_text(kind, it) for it in blocks]
    numbers = reference.read_set(kind, ", ".join(blocks))
    prefixes = reference.cover(kind, numbers)
    if stored is not None:
        agree("rows", f"cover {kind} {blocks}", stored, ", ".join(prefixes))
    size = 32 if kind == "v4" else 128
    flags = {OF_KIND[kind]}
    if numbers:
        flags.add("SeveralRanges" if len(numbers) > 1 else "OnePrefix" if len(prefixes) == 1 else "OneRange")
    flags |= {"HostRoute"} if any(it.endswith(f"/{size}") for it in prefixes) else set()
    flags |= {"Extreme"} if is_extreme(kind, numbers) else set()
    flags |= {"NoneOrAll"} if numbers in ([], [limits(kind)]) else set()
    flags |= set() if is_merged(kind, blocks) else {"NotMerged"}
    flags |= {"Longest"} if len(numbers) == 1 and len(prefixes) >= 2 * size - 6 else set()
    return Case(ordered(flags, COVER_FLAGS), {"blocks": blocks, "family": kind}, {"prefixes": prefixes})


def stored_covers() -> Iterator[Case]:
    """Yields the cases of the covers in rows."""
    lines, values = Rows("rows_sets"), Rows("rows_values")
    for kind in KINDS[1:]:
        for text, answer in lines.of(f"cover {kind}"):
            blocks = blocks_of(kind, text)
            if blocks is not None and is_chosen(text, 30 if kind == "v6" else 100):
                yield cover_case(kind, blocks, answer)
    for text, answer in values.of("prefixes v6"):
        yield cover_case("v6", [reference.block_text("v6", text)], answer)


def made_covers() -> Iterator[Case]:
    """Yields covers at the ends of the families, and the longest ones."""
    whole = {"v4": ("0.0.0.0", "255.255.255.255"), "v6": ("::", "ffff:ffff:ffff:ffff:ffff:ffff:ffff:ffff")}
    for kind in KINDS[1:]:
        first, last = whole[kind]
        near = (
            ("0.0.0.{}", "255.255.255.{}")
            if kind == "v4"
            else ("::{:x}", "ffff:ffff:ffff:ffff:ffff:ffff:ffff:ff{:02x}")
        )
        ends = [f"{first}/1", f"{near[1].format(255)}/1"]
        yield from (cover_case(kind, it) for it in (list[str](), [f"{first}-{last}"], [f"{first}/0"], ends))
        for low in range(4):
            for high in range(252, 256):
                yield cover_case(kind, [f"{near[0].format(low)}-{near[1].format(high)}"])
        half = (
            ("127.255.255.255", "128.0.0.0") if kind == "v4" else ("7fff:ffff:ffff:ffff:ffff:ffff:ffff:ffff", "8000::")
        )
        for at in range(1, 5):
            yield cover_case(kind, [f"{near[0].format(at)}-{half[0]}", f"{half[1]}-{last}"])
            yield cover_case(kind, [f"{half[1]}/{at}", f"{first}-{half[0]}", f"{half[1]}-{last}"])
            yield cover_case(
                kind, ["0.0.0.0/0" if kind == "v4" else "::/0", f"{near[0].format(at)}/{32 if kind == 'v4' else 128}"]
            )


def files() -> list[VectorFile]:
    """Returns the three files."""
    sets = VectorFile(
        "set_operations",
        "operations on sets of resources",
        [
            "input.left and input.right are lists of blocks, in any order.",
            "expected.text is the canonical list of the result. expected.holds is whether the relation holds.",
        ],
        SET_FLAGS,
    )
    paths = VectorFile(
        "verify_path",
        "certification paths (RFC 6487, 7.2; RFC 8360, 4)",
        [
            "input.anchor has what the trust anchor lists.",
            "input.certificates has what each certificate below it claims, the issuer first.",
            "A claim is a list, inherit, or missing.",
            "octets is the extension's value in hexadecimal, null if the certificate has none.",
            "policy is refuse (RFC 6487) or trim (RFC 8360). It has no meaning if the claim is inherit or missing.",
            "expected.text is what the last certificate has.",
            "If the result is invalid, expected.certificate is the index of the first one that overclaims, from 0.",
            "expected.overclaimed is what this certificate lists and its issuer does not have.",
        ],
        PATH_FLAGS,
    )
    covers = VectorFile(
        "prefix_cover",
        "the shortest list of prefixes with given addresses",
        [
            "input.blocks is a list of blocks, in any order.",
            "expected.prefixes is the shortest list of prefixes with exactly these addresses, in ascending order.",
        ],
        COVER_FLAGS,
    )
    for file, makers in (
        (sets, (stored_operations, made_operations)),
        (paths, (stored_paths, made_paths)),
        (covers, (stored_covers, made_covers)),
    ):
        for maker in makers:
            for case in maker():
                file.add(case)
    return [sets, paths, covers]
