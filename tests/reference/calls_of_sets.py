"""The answers of the programs `rows_sets` and `rows_claims` about chains, sets and claims."""

from collections.abc import Callable
from typing import Any

from . import asn, ip, lines, paths, resources, sets, texts
from .faults import Fault
from .sets import Set

NO_COMMAND = "no such command"
LAST_OF_PAIRS = 2**64 - 1


def truth(answer: bool) -> str:
    """Returns the word for an answer of yes or no."""
    return "true" if answer else "false"


def _read_pair(text: str) -> tuple[int, int]:
    """Reads two numbers of 64 bits in order with a dash between them, or one number."""
    first, last = texts.cut(text, "-") if "-" in text else (text, text)
    try:
        pair = texts.number(first, LAST_OF_PAIRS), texts.number(last, LAST_OF_PAIRS)
    except Fault:
        raise Fault("no pair of numbers") from None
    if pair[0] > pair[1]:
        raise Fault("no pair of numbers")
    return pair


def _lists(read: Callable[[str], Any], text: str) -> tuple[list[Any], list[Any]]:
    left, right = ([read(part) for part in texts.elements(side)] for side in texts.cut(text, "|"))
    return left, right


def _print_pairs(pairs: Set) -> str:
    return ", ".join(f"{low}-{high}" for low, high in pairs)


def _trimmed(left: Set, right: Set, show: Callable[[Set], str]) -> str:
    return "ok" if sets.has_all(right, left) else show(sets.intersection(left, right))


CHAIN_QUESTIONS: dict[str, Callable[[Set, Set], str]] = {
    "from_blocks": lambda left, right: _print_pairs(left),
    "copy": lambda left, right: _print_pairs(left),
    "shared": lambda left, right: _print_pairs(left),
    "difference": lambda left, right: _print_pairs(sets.difference(left, right)),
    "union": lambda left, right: _print_pairs(sets.union(left, right)),
    "trim": lambda left, right: _trimmed(left, right, _print_pairs),
    "within": lambda left, right: truth(sets.has_all(right, left)),
    "equal": lambda left, right: truth(left == right),
}
PAIR_OF_CHAIN: dict[str, Callable[[Set, tuple[int, int]], bool]] = {
    "contains": lambda left, pair: sets.meets(left, [(pair[0], pair[0])]),
    "has": lambda left, pair: sets.has_all(left, [pair]),
    "meets": lambda left, pair: sets.meets(left, [pair]),
}


def _chain(question: str, text: str) -> str:
    if question not in CHAIN_QUESTIONS and question not in PAIR_OF_CHAIN:
        return NO_COMMAND
    left, right = _lists(_read_pair, text)
    if question in CHAIN_QUESTIONS:
        return CHAIN_QUESTIONS[question](sets.merged(left), sets.merged(right))
    if len(right) != 1:
        return NO_COMMAND
    return truth(PAIR_OF_CHAIN[question](sets.merged(left), right[0]))


def _pair(question: str, text: str) -> str:
    one, other = (_read_pair(part) for part in texts.cut(text, "|"))
    left, right = [one], [other]
    if question == "sum":
        joined = sets.merged([one, other])
        return _print_pairs(joined) if len(joined) == 1 else "none"
    answers = {
        "contains": sets.meets(left, [(other[0], other[0])]),
        "intersects": sets.meets(left, right),
        "within": sets.has_all(right, left),
        "equal": one == other,
    }
    return truth(answers[question]) if question in answers else NO_COMMAND


def _long(question: str, text: str) -> str:
    count = texts.number(text, 2**32 - 1)
    fourths: Set = [(4 * at, 4 * at) for at in range(count)]
    others: Set = [(4 * at + 2, 4 * at + 2) for at in range(count)]

    def shown(numbers: Set) -> str:
        return f"{len(numbers)} blocks"

    def cover() -> str:
        ranges = (f"{at:x}::1-{at:x}:ffff:ffff:ffff:ffff:ffff:ffff:fffe" for at in range(count))
        return f"{len(lines.answer(('cover v6 ' + ','.join(ranges)).encode()))} octets"

    def families() -> str:
        return f"{len(resources.written_families(resources.Families(None, fourths)))} octets"

    answers: dict[str, Callable[[], str]] = {
        "as": lambda: f"{len(sets.union(fourths, others))} numbers",
        "build": lambda: f"{len(sets.union(fourths, others))} numbers",
        "changed": lambda: f"{len(set(fourths) - set(others))} changed",  # valid in one table, not found in the other
        "changes": lambda: f"{len(set(fourths) - set(others))} announced, {len(set(others) - set(fourths))} withdrawn",
        "cover": cover,
        "v6": lambda: shown(sets.union(fourths, others)),
        "families": families,
        "from_blocks": lambda: shown(fourths),
        "contains": lambda: truth(not sets.meets(fourths, [(n + 1, n + 1) for n, _ in fourths])),
        "union": lambda: shown(sets.union(fourths, others)),
        "difference": lambda: truth(sets.difference(fourths, others) == fourths),
        "trim": lambda: _trimmed(fourths, others, shown),
        "within": lambda: _trimmed(fourths, fourths, shown),
    }
    return answers[question]() if question in answers else NO_COMMAND


def _print_numbers(numbers: Set) -> str:
    return " ".join(str(number) for low, high in numbers for number in range(low, high + 1))


def _ordered(left: list[int], right: list[int]) -> str:
    return "less" if left < right else "greater" if left > right else "equal"


SMALL: dict[str, Callable[[set[int], set[int]], set[int]]] = {
    "union": set.union,
    "intersection": set.intersection,
    "difference": set.difference,
    "symmetric": set.symmetric_difference,
    "copy": lambda left, right: left,
}


def _small(question: str, text: str) -> str:
    left, right = (set(numbers) for numbers in _lists(asn.read_asn, text))
    if question == "order":
        return _ordered(sorted(left), sorted(right))
    if question not in SMALL:
        return NO_COMMAND
    return " ".join(map(str, sorted(SMALL[question](left, right))))


def read_triple(text: str) -> tuple[Set, Set, Set]:
    """Reads the set of each kind, from three lists with semicolons between them."""
    one, others = texts.cut(text, ";")
    found = []
    for kind, name, listed in zip(
        lines.KINDS, ("ASN", "IPv4", "IPv6"), (one, *texts.cut(others, ";")), strict=True
    ):
        try:
            found.append(lines.read_set(kind, listed))
        except Fault as fault:
            raise Fault(f"cannot parse {name} resources: {fault}") from None
    return found[0], found[1], found[2]


def print_triple(triple: tuple[Set, Set, Set]) -> str:
    """Returns the lists of the three kinds."""
    listed = map(lines.print_set, lines.KINDS, triple)
    return ", ".join(
        f"{name}: '{text}'" for name, text in zip(("asn", "ipv4", "ipv6"), listed, strict=True)
    )


def print_changes(before: tuple[Set, Set, Set], now: tuple[Set, Set, Set]) -> str:
    """Returns the resources that only the second has, and those that only the first has."""
    words = []
    for word, one, other in (("Added:", now, before), ("Removed:", before, now)):
        changed = map(sets.difference, one, other)
        named = zip(("asn", "ipv4", "ipv6"), lines.KINDS, changed, strict=True)
        shown = [f" {name}: {lines.print_set(kind, has)}" for name, kind, has in named if has]
        if shown:
            words.append(word + "".join(shown))
    return " ".join(words) or "<no changes in resources>"


def _difference_of_triples(text: str) -> str:
    one, other = (read_triple(side) for side in texts.cut(text, "|"))
    return print_changes(other, one)


OF_TRIPLES: dict[str, Callable[[Set, Set], Set]] = {
    "union": sets.union,
    "intersection": sets.intersection,
    "added": sets.difference,
    "copy": lambda left, right: left,
    "claims": lambda left, right: left,
}


def _triple(question: str, text: str) -> str:
    one, other = (read_triple(side) for side in texts.cut(text, "|"))
    if question == "all":
        return print_triple((asn.ALL, ip.ALL, ip.ALL))
    if question == "changes":
        return print_changes(other, one)
    if question not in OF_TRIPLES:
        return NO_COMMAND
    asns, ipv4, ipv6 = map(OF_TRIPLES[question], one, other)
    return print_triple((asns, ipv4, ipv6))


KIND_OF_CLAIM = {"as": "as", "ip": "v6", "v4": "v4", "v6": "v6"}


def _read_listed(kind: str, text: str) -> Set:
    return asn.read_set(text) if kind == "as" else ip.read_either(text)


def _issued(kind: str, text: str) -> str:
    mode, listed = texts.cut(text, " ")
    issuer, claim = (_read_listed(kind, part) for part in texts.cut(listed, "|"))
    step = paths.Step(paths.claim_of(claim), mode == "trim")
    try:
        return lines.print_set(KIND_OF_CLAIM[kind], paths.left(issuer, [step]))
    except paths.Refused as refused:
        raise Fault(lines.overclaimed(KIND_OF_CLAIM[kind], refused.excess)) from None


def _fault(kind: str, text: str) -> str:
    excess = _read_listed(kind, text)
    if not excess:
        return "ok"
    if kind == "ip":
        return lines.print_set("v6", excess)
    if kind == "v4" and not ip.is_whole(excess):
        return "no whole addresses"
    return lines.overclaimed(kind, excess)


def _claim(question: str, text: str) -> str:
    word, kind = texts.cut(question, "_") if "_" in question else ("", question)
    if word == "issued" and kind in ("as", "ip"):
        return _issued(kind, text)
    if word == "fault" and kind in KIND_OF_CLAIM:
        return _fault(kind, text)
    if word in ("", "copy") and kind in ("as", "ip"):
        return lines.print_set(KIND_OF_CLAIM[kind], _read_listed(kind, text))
    return NO_COMMAND


OPERATIONS: dict[str, Callable[[Set, Set], Set]] = {
    "union": sets.union,
    "intersection": sets.intersection,
    "assign": sets.intersection,
    "difference": sets.difference,
}
COMPARISONS: dict[str, Callable[[Set, Set], bool]] = {
    "contains": sets.has_all,
    "equal": lambda left, right: left == right,
}


def _made_of_blocks(question: str, kind: str, text: str) -> Set:
    if kind == "as":
        left, right = _lists(asn.read_block, text)
    else:
        left, right = _lists(lambda block: ip.read_block(block, None), text)
    blocks = left + right if question == "build" else left
    return sets.merged([block.bounds() for block in blocks])


def _has(question: str, kind: str, numbers: Set, text: str) -> str:
    if kind == "as":
        number = asn.read_asn(text)
        return truth(sets.has_all(numbers, [(number, number)]))
    block = [ip.read_block(text, lines.FAMILIES[kind]).bounds()]
    return truth(sets.has_all(numbers, block) if question == "has" else sets.meets(numbers, block))


def _of_set(question: str, kind: str, numbers: Set, right: str) -> str:
    if question == "copy":
        return lines.print_set(kind, numbers)
    if question == "octets":
        is_as = kind == "as"
        write = resources.written_as_blocks if is_as else resources.written_ip_set
        return write(numbers).hex()
    if question == "count" and kind == "as":
        return str(sets.size(numbers))
    if question == "numbers" and kind == "as":
        return _print_numbers(numbers)
    if question == "has" or (question == "meets" and kind != "as"):
        return _has(question, kind, numbers, right)
    if question in OPERATIONS:
        operation = OPERATIONS[question]
        return lines.print_set(kind, operation(numbers, lines.read_set(kind, right)))
    if question in COMPARISONS:
        return truth(COMPARISONS[question](numbers, lines.read_set(kind, right)))
    return NO_COMMAND


def _set_question(question: str, kind: str, text: str) -> str:
    if kind not in lines.KINDS:
        return "no such kind"
    if question == "all":
        return lines.print_set(kind, asn.ALL if kind == "as" else ip.ALL)
    if question in ("build", "from_blocks", "from_vec"):
        return lines.print_set(kind, _made_of_blocks(question, kind, text))
    left, right = texts.cut(text, "|")
    return _of_set(question, kind, lines.read_set(kind, left), right)


QUESTIONS = (
    *("all", "build", "from_blocks", "from_vec", "copy", "octets", "count", "numbers"),
    *("has", "meets"),
    *OPERATIONS,
    *COMPARISONS,
)
GROUPS: dict[str, Callable[[str, str], str]] = {
    "small": _small,
    "chain": _chain,
    "pair": _pair,
    "long": _long,
    "claim": _claim,
    "triple": _triple,
}


def _answer(line: str) -> str:
    command, rest = texts.cut(line, " ")
    kind, operands = texts.cut(rest, " ")
    if command in GROUPS:
        return GROUPS[command](kind, operands)
    if command == "set":
        return print_triple(read_triple(rest))
    if command == "diff":
        return _difference_of_triples(rest)
    if command in QUESTIONS:
        return _set_question(command, kind, operands)
    return lines.answer(line.encode("utf-8"))


def answer(line: str) -> str:
    """Returns the answer to a line."""
    try:
        return _answer(line)
    except Fault as fault:
        return f"error: {fault}"
