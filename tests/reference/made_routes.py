"""Makes the VRPs and routes that `bench_growth` makes, and says what it prints of their origins."""

from .addresses import Family
from .prefixes import MaxLenPrefix, Prefix, Vrp, validity

SEED = 6811
WORD = (1 << 64) - 1
# Lengths of prefixes: 16 for each family. A frequent length is listed several times.
LENGTHS = {
    Family.V4: (24,) * 9 + (23, 22, 22, 21, 20, 19, 18),
    Family.V6: (48,) * 7 + (44, 40, 40, 36, 32, 32, 32, 32, 29),
}
LONGEST = {Family.V4: 24, Family.V6: 48}
WORST = {"one": range(8, 9), "chain": range(1, 33)}
DIGITS = {"Valid": 1, "Invalid": 2, "NotFound": 3}


class Numbers:
    """Pseudorandom numbers of 64 bits (splitmix64)."""

    def __init__(self, seed: int) -> None:
        self.state = seed

    def next(self) -> int:
        """Returns the next number."""
        self.state = (self.state + 0x9E3779B97F4A7C15) & WORD
        first = (self.state ^ self.state >> 30) * 0xBF58476D1CE4E5B9 & WORD
        second = (first ^ first >> 27) * 0x94D049BB133111EB & WORD
        return second ^ second >> 31

    def below(self, limit: int) -> int:
        """Returns a number below the limit, or 0 if the limit is 0."""
        number = self.next()
        return number % limit if limit else 0

    def asn(self) -> int:
        """Returns an AS number."""
        return self.below(70_000)

    def prefix(self) -> Prefix:
        """Returns a prefix. Four of five are of IPv4."""
        family = Family.V4 if self.below(5) > 0 else Family.V6
        number = self.next()
        address = number & 0xFFFF_FFFF if family is Family.V4 else number << 61
        return shortened(family, address, LENGTHS[family][self.below(16)])

    def vrp(self) -> Vrp:
        """Returns a VRP. A quarter of them allow routes longer than their prefix."""
        prefix = self.prefix()
        longest = max(prefix.length, LONGEST[prefix.family])
        max_length = longest if self.below(4) == 0 else None
        return Vrp(MaxLenPrefix(prefix, max_length), self.asn())

    def route(self, vrps: list[Vrp]) -> tuple[Prefix, int]:
        """Returns a route of any prefix, or of a VRP.

        A route of a VRP has the maximum length or one bit more. Some of these routes have another AS.
        """
        at = self.below(len(vrps))
        if not vrps or self.below(2) > 0:
            return self.prefix(), self.asn()
        vrp = vrps[at]
        family, address, _ = vrp.prefix.prefix
        length = vrp.prefix.resolved() + (self.below(64) == 0)
        other = self.asn()
        asn = other if self.below(64) == 0 else vrp.asn
        return shortened(family, address, length), asn


def shortened(family: Family, address: int, length: int) -> Prefix:
    """Returns the prefix of an address, with the bits after the length cleared."""
    behind = family.bits - length
    return Prefix(family, address >> behind << behind, length)


def summary(validities: list[str]) -> str:
    """Returns what the program prints for the validities of routes."""
    counts = ", ".join(f"{validities.count(name)} {name}" for name in DIGITS)
    mark = 0
    for found in validities:
        mark = (mark * 31 + DIGITS[found]) & WORD
    return f"{len(validities)} routes: {counts}, mark {mark}"


def answer(vrp_count: int, route_count: int) -> str:
    """Returns what the program prints for these numbers of VRPs and routes. Without routes the VRPs do not matter."""
    numbers = Numbers(SEED)
    vrps = [numbers.vrp() for _ in range(vrp_count if route_count else 0)]
    routes = [numbers.route(vrps) for _ in range(route_count)]
    return summary([validity(prefix, asn, vrps) for prefix, asn in routes])


def worst_answers(word: str, vrp_count: int) -> list[str]:
    """Returns what the program prints for three routes, a thousand times each.

    The VRPs have prefixes of some lengths around 10.0.0.0.
    """
    lengths = WORST[word]
    vrps = [
        Vrp(MaxLenPrefix(shortened(Family.V4, 10 << 24, lengths[at % len(lengths)]), None), at // len(lengths) + 1)
        for at in range(vrp_count)
    ]
    asked = ((11 << 24, 24, 65_536), (10 << 24, 32, 65_536), (10 << 24, 8, 1))
    routes = [(shortened(Family.V4, address, length), asn) for address, length, asn in asked]
    return [summary([validity(*route, vrps)] * 1000) for route in routes]
