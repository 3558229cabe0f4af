"""Random lines of `respath`: well-formed ones of every form, and damaged ones.

Numbers lie close together or at the ends of their type, so that blocks overlap and touch.
"""

from collections.abc import Callable, Iterator
from random import Random

from . import der, ip, resources
from .addresses import Family, print_address, print_v4
from .asn import LAST, AsBlock
from .lines import COMMANDS, FAMILIES
from .resources import Families
from .sets import merged

SPACES = (" ", "", "  ", "\t", "\r", "\u00a0", "\u2003", "\u3000", "\x0b", "\u0085", "\x1c")
DAMAGE = "0123456789abcdefASx.:/-+,| \u00a0\u0661%[]"
WORDS = (*COMMANDS, "Norm", "", "paths")
FOREIGN_KINDS = ("v5", "", "AS", "ipv4")


class Maker:
    """Makes lines of one command."""

    def __init__(self, command: str, seed: int) -> None:
        self.command = command
        self.random = Random(f"{seed} {command}")

    def one_in(self, count: int) -> bool:
        """Returns true in one of `count` cases, at random."""
        return self.random.randrange(count) == 0

    def line(self) -> bytes:
        """Returns a line as octets."""
        _, kinds = COMMANDS[self.command]
        kind = self.random.choice(kinds)
        argument = self._damaged(ARGUMENTS.get(self.command, Maker.list_text)(self, kind))
        if self.one_in(200):
            kind = self.random.choice((*kinds, *FOREIGN_KINDS))
        command = self.random.choice(WORDS) if self.one_in(200) else self.command
        octets = f"{command} {kind} {argument}".encode("utf-8")
        if self.one_in(200):
            at = self.random.randrange(len(octets) + 1)
            octets = octets[:at] + bytes([self.random.randrange(0x80, 0x100)]) + octets[at:]
        return octets

    def _damaged(self, text: str) -> str:
        """Returns the text, in some cases with characters inserted, dropped or replaced."""
        if not self.one_in(6):
            return text
        for _ in range(self.random.randint(1, 3)):
            at = self.random.randrange(len(text) + 1)
            end = at + self.random.randrange(2)
            inserted = self.random.choice(DAMAGE) if self.one_in(2) else ""
            text = text[:at] + inserted + text[end:]
        return text

    def _near(self, last: int, middles: tuple[int, ...]) -> int:
        """Returns a number at an end of the type, near a power of two, near one of a few numbers, or anywhere."""
        random = self.random
        way = random.randrange(8)
        if way == 0:
            return random.choice((0, last)) ^ random.randrange(4)
        if way == 1:
            power = 1 << random.randrange(last.bit_length())
            return min(last, max(0, power + random.randint(-2, 2)))
        if way == 2:
            return random.randint(0, last)
        return min(last, random.choice(middles) + random.randrange(1 << random.randrange(1, 9)))

    def asn(self) -> int:
        """Returns an AS number."""
        return self._near(LAST, (0, 64496, LAST - 300))

    def address(self, family: Family) -> int:
        """Returns the number of an address."""
        last = (1 << family.bits) - 1
        middle = 10 << 24 if family is Family.V4 else 0x20010DB8 << 96
        mapped = 0xFFFF << 32 if family is Family.V6 else 192 << 24
        return self._near(last, (0, middle, mapped, last - 300))

    def bounds(self, make: Callable[[], int], last: int) -> tuple[int, int]:
        """Returns two numbers in order, mostly close together."""
        first = make()
        if self.one_in(3):
            other = make()
            return min(first, other), max(first, other)
        return first, min(last, first + self.random.randrange(1 << self.random.randrange(1, 10)))

    def as_block(self) -> AsBlock:
        """Returns an AS block in either form."""
        first, last = self.bounds(self.asn, LAST)
        if self.one_in(2):
            return AsBlock(first, first, False)
        return AsBlock(first, last, True)

    def ip_block(self, family: Family) -> ip.IpBlock:
        """Returns a block of addresses in either form."""
        behind = 128 - family.bits
        if self.one_in(2):
            length = self.random.randint(0, family.bits)
            if not self.one_in(4):
                length = self.random.randint(family.bits - 10, family.bits)
            return ip.prefix(self.address(family) << behind, length)
        last = (1 << family.bits) - 1
        low, high = self.bounds(lambda: self.address(family), last)
        return ip.IpBlock(low << behind, (high + 1 << behind) - 1, None)

    # Texts

    def number_text(self, number: int) -> str:
        """Returns a decimal, sometimes with a plus or zeros."""
        if not self.one_in(12):
            return str(number)
        return self.random.choice(("+", "0", "000", "+00")) + str(number)

    def asn_text(self, number: int) -> str:
        """Returns an AS number with letters in some case, or without letters."""
        return self.random.choice(("AS", "AS", "as", "aS", "")) + self.number_text(number)

    def as_text(self) -> str:
        """Returns an AS block as text."""
        block = self.as_block()
        if not block.is_range:
            return self.asn_text(block.first)
        first, last = block.bounds()
        if self.one_in(40):
            first, last = last, first
        return f"{self.asn_text(first)}-{self.asn_text(last)}"

    def address_text(self, family: Family, number: int) -> str:
        """Returns an address as text. An IPv6 address has one of many forms."""
        shown = print_address(family, number)
        if family is Family.V4 or self.one_in(2):
            return shown
        groups = [f"{number >> 16 * at & 0xFFFF:x}" for at in range(7, -1, -1)]
        groups = [self.random.choice((group, group.upper(), group.zfill(4))) for group in groups]
        if self.one_in(3):
            groups[6:] = [print_v4(number & 0xFFFFFFFF)]
        zeros = [at for at, group in enumerate(groups) if not group.strip("0")]
        if zeros and self.one_in(2):
            return self._compressed(groups, self.random.choice(zeros))
        return ":".join(groups)

    @staticmethod
    def _compressed(groups: list[str], at: int) -> str:
        """Returns the groups with `::` in place of the zeros from an index on."""
        end = at
        while end < len(groups) and not groups[end].strip("0"):
            end += 1
        return ":".join(groups[:at]) + "::" + ":".join(groups[end:])

    def ip_text(self, family: Family) -> str:
        """Returns a block of addresses as text, sometimes of the other family."""
        if self.one_in(80):
            family = Family.V4 if family is Family.V6 else Family.V6
        way = self.random.randrange(3)
        first = self.address(family)
        if way == 0:
            return self.address_text(family, first)
        if way == 1:
            length = self.random.randint(0, family.bits + (2 if self.one_in(20) else 0))
            return f"{self.address_text(family, first)}/{self.number_text(length)}"
        low, high = self.bounds(lambda: self.address(family), (1 << family.bits) - 1)
        if self.one_in(40):
            low, high = high, low
        return f"{self.address_text(family, low)}-{self.address_text(family, high)}"

    def list_text(self, kind: str) -> str:
        """Returns a list of blocks with white space around some."""
        count = self.random.choice((0, 1, 1, 2, 2, 3, 4, 6, 12))
        parts = [self._block_text(kind) for _ in range(count)]
        if self.one_in(8):
            parts.insert(self.random.randint(0, count), "")
        if self.one_in(4):
            return ",".join(self._spaced(part) for part in parts)
        return self.random.choice((",", ", ")).join(parts)

    def _block_text(self, kind: str) -> str:
        return self.as_text() if kind == "as" else self.ip_text(FAMILIES[kind])

    def _spaced(self, text: str) -> str:
        return self.random.choice(SPACES) + text + self.random.choice(SPACES)

    def claim_text(self, kind: str) -> str:
        """Returns a list, or `inherit`."""
        return "inherit" if self.one_in(20) else self.list_text(kind)

    def path_text(self, kind: str) -> str:
        """Returns a root and steps."""
        steps = (self._step_text(kind) for _ in range(self.random.choice((0, 1, 1, 2, 3, 5))))
        return " |".join((self.list_text(kind), *steps))

    def _step_text(self, kind: str) -> str:
        way = self.random.randrange(24)
        if way == 0:
            return self._spaced("missing")
        if way < 4:
            return self._spaced("inherit")
        if way == 4:
            return self.random.choice(("", " grab AS1", " inherit AS2", " missing 1", "trim\t1"))
        word = self.random.choice(("refuse", "trim", "trim"))
        return f"{self.random.choice(SPACES)}{word} {self.list_text(kind)}"

    # Octets

    def hexadecimal(self, kind: str) -> str:
        """Returns octets of resources in hexadecimal, with letters in some case."""
        octets = self._damaged_octets(self.octets(kind))
        shown = octets.hex()
        return shown.upper() if self.one_in(8) else shown

    def octets(self, kind: str) -> bytes:
        """Returns octets of resources, canonical ones or ones in any order and form."""
        if kind == "as":
            return self._as_octets()
        if self.one_in(3):
            claims = [self._canonical_claim(family) for family in Family]
            return resources.written_families(Families(*claims))
        members = [self._member(family) for family in self._families(FAMILIES[kind])]
        return self._sequence(b"".join(members))

    def _families(self, family: Family) -> list[Family]:
        both = [Family.V4, Family.V6]
        other = [one for one in both if one is not family]
        choices = [[family], both, both[::-1], other, [family, family], []]
        return self.random.choices(choices, (6, 6, 4, 2, 1, 1))[0]

    def _canonical_claim(self, family: Family) -> resources.Claim:
        if self.one_in(6):
            return resources.INHERIT
        blocks = [self.ip_block(family).bounds() for _ in range(self.random.randint(1, 5))]
        return merged(blocks)

    def _as_octets(self) -> bytes:
        if self.one_in(12):
            choice = self._null()
        else:
            blocks = [self.as_block() for _ in range(self.random.choice((0, 1, 2, 3, 8, 30)))]
            choice = self._sequence(b"".join(map(resources.written_as_block, blocks)))
        return self._sequence(der.written(der.CONTEXT_0, choice))

    def _null(self) -> bytes:
        """Returns a NULL, sometimes with content."""
        return der.written(der.NULL, b"\0" if self.one_in(20) else b"")

    def _member(self, family: Family) -> bytes:
        number = der.written(der.OCTET_STRING, family.number.to_bytes(2, "big"))
        if self.one_in(8):
            return self._sequence(number + self._null())
        count = self.random.choice((0, 1, 1, 2, 3, 8, 30))
        blocks = [self._ip_octets(family) for _ in range(count)]
        return self._sequence(number + self._sequence(b"".join(blocks)))

    def _ip_octets(self, family: Family) -> bytes:
        """Returns a block in its own form, or a range of any two prefixes that are not shortened."""
        block = self.ip_block(family)
        if not self.one_in(4):
            return resources.written_ip_block(block)
        bounds = (self._bits(number, family) for number in block.bounds())
        return self._sequence(b"".join(bounds))

    def _bits(self, number: int, family: Family) -> bytes:
        """Returns a BIT STRING of the first bits of an address, sometimes with unused bits that are set.

        In a few cases it has more bits than the addresses of the family.
        """
        length = self.random.randint(0, family.bits) if self.one_in(3) else family.bits
        if self.one_in(40):
            length = self.random.randint(family.bits, 128)
        octets = bytearray(der.written_prefix(number, length))
        if length % 8 and self.one_in(2):
            octets[-1] |= self.random.randrange(1 << -length % 8)
        return bytes(octets)

    def _sequence(self, content: bytes) -> bytes:
        if self.one_in(60):
            return bytes([der.SEQUENCE, 0x82]) + len(content).to_bytes(2, "big") + content
        return der.written(der.SEQUENCE, content)

    def _damaged_octets(self, octets: bytes) -> bytes:
        """Returns the octets, in some cases cut, with more octets at the end, or with octets replaced."""
        way = self.random.randrange(12)
        if way == 0:
            return octets[: self.random.randrange(len(octets) + 1)]
        if way == 1:
            return octets + self.random.randbytes(self.random.randint(1, 2))
        if way < 4 and octets:
            changed = bytearray(octets)
            for _ in range(self.random.randint(1, 2)):
                changed[self.random.randrange(len(changed))] = self._octet()
            return bytes(changed)
        return octets

    def _octet(self) -> int:
        named = (0, 1, 2, 3, 4, 5, 6, 7, 8, 0x30, 0x7F, 0x80, 0x81, 0x82, 0x88, 0x89, 0xA0, 0xFF)
        return self.random.choice((*named, self.random.randrange(0x100)))


# The commands whose argument is more than a list of blocks, with the function that makes one.
ARGUMENTS: dict[str, Callable[[Maker, str], str]] = {
    "der": Maker.claim_text,
    "read": Maker.hexadecimal,
    "path": Maker.path_text,
}


def lines(command: str, seed: int) -> Iterator[bytes]:
    """Yields lines of a command without end. A seed always gives the same lines."""
    maker = Maker(command, seed)
    while True:
        yield maker.line()
