"""Writes an RPKI repository that a relying party reads from its cache: certificates with given resource extensions,
CRLs, manifests and ROAs (RFC 6487, 9286 and 9582), and a TAL (RFC 8630).

The keys are made by the program openssl. Nothing is downloaded, and the trust anchor is no one's.
"""

import base64
import hashlib
import subprocess
from ipaddress import ip_network
from pathlib import Path
from typing import NamedTuple

SHA256, RSA = "2.16.840.1.101.3.4.2.1", "1.2.840.113549.1.1.1"
SIGNATURE = "1.2.840.113549.1.1.11"
SINCE, UNTIL = "200101000000Z", "401231235959Z"
HOST = "rpki.example.net"
ROOT = f"rsync://{HOST}/repo/"
# The certificate policy and the two resource extensions, of RFC 6487 and of RFC 8360.
POLICIES = {
    "refuse": ("1.3.6.1.5.5.7.14.2", "1.3.6.1.5.5.7.1.7", "1.3.6.1.5.5.7.1.8"),
    "trim": ("1.3.6.1.5.5.7.14.3", "1.3.6.1.5.5.7.1.28", "1.3.6.1.5.5.7.1.29"),
}


def tlv(tag: int, *parts: bytes) -> bytes:
    """A value in DER with a tag of one octet."""
    content = b"".join(parts)
    size = len(content)
    octets = size.to_bytes((size.bit_length() + 7) // 8, "big")
    return bytes([tag]) + (bytes([size]) if size < 0x80 else bytes([0x80 + len(octets)]) + octets) + content


def sequence(*parts: bytes) -> bytes:
    """A SEQUENCE."""
    return tlv(0x30, *parts)


def set_of(*parts: bytes) -> bytes:
    """A SET OF."""
    return tlv(0x31, *sorted(parts))


def integer(number: int) -> bytes:
    """An INTEGER that is not negative."""
    return tlv(2, number.to_bytes(number.bit_length() // 8 + 1, "big"))


def bits(octets: bytes, unused: int = 0) -> bytes:
    """A BIT STRING."""
    return tlv(3, bytes([unused]), octets)


def oid(text: str) -> bytes:
    """An OBJECT IDENTIFIER."""
    first, second, *arcs = map(int, text.split("."))
    octets = bytearray([40 * first + second])
    for arc in arcs:
        groups = [arc >> shift & 0x7F | (0x80 if shift else 0) for shift in range(arc.bit_length() // 7 * 7, -1, -7)]
        octets += bytes(groups[1:] if len(groups) > 1 and groups[0] == 0x80 else groups)
    return tlv(6, bytes(octets))


def algorithm(name: str) -> bytes:
    """An AlgorithmIdentifier."""
    return sequence(oid(name), tlv(5))


def time(text: str, is_long: bool = False) -> bytes:
    """A UTCTime, or a GeneralizedTime."""
    return tlv(0x18, b"20", text.encode()) if is_long else tlv(0x17, text.encode())


def numbers(octets: bytes) -> list[int]:
    """The INTEGERs of a SEQUENCE."""
    found, at = [], 0
    while at < len(octets):
        tag, size = octets[at], octets[at + 1]
        more = size & 0x7F if size & 0x80 else 0
        size = int.from_bytes(octets[at + 2 : at + 2 + more], "big") if more else size
        at += 2 + more
        if tag == 0x30:
            return numbers(octets[at : at + size])
        found.append(int.from_bytes(octets[at : at + size], "big"))
        at += size
    return found


class Key:
    """A pair of RSA keys, and the name of who has it."""

    def __init__(self, name: str) -> None:
        made = subprocess.run(["openssl", "genrsa", "-traditional", "2048"], capture_output=True, check=True).stdout
        der = base64.b64decode(b"".join(made.split(b"\n")[1:-2]))
        _, self.modulus, exponent, _, self.p, self.q, self.dp, self.dq, self.inverse = numbers(der)
        public = sequence(integer(self.modulus), integer(exponent))
        self.name = sequence(set_of(sequence(oid("2.5.4.3"), tlv(0x13, name.encode()))))
        self.info = sequence(algorithm(RSA), bits(public))
        self.identifier = hashlib.sha1(public).digest()

    def sign(self, octets: bytes) -> bytes:
        """The signature of octets (RFC 8017, 8.2)."""
        digest = sequence(algorithm(SHA256), tlv(4, hashlib.sha256(octets).digest()))
        number = int.from_bytes(b"\0\1" + b"\xff" * (253 - len(digest)) + b"\0" + digest, "big")
        left, right = pow(number, self.dp, self.p), pow(number, self.dq, self.q)
        return (right + (left - right) * self.inverse % self.p * self.q).to_bytes(256, "big")

    def signed(self, octets: bytes) -> bytes:
        """A value, its signature algorithm and its signature."""
        return sequence(octets, algorithm(SIGNATURE), bits(self.sign(octets)))


def extension(name: str, value: bytes, is_critical: bool = False) -> bytes:
    """A certificate extension."""
    return sequence(oid(name), tlv(1, b"\xff") if is_critical else b"", tlv(4, value))


def location(uri: str) -> bytes:
    """A GeneralName that is a URI."""
    return tlv(0x86, uri.encode())


def access(method: str, uri: str) -> bytes:
    """An AccessDescription of PKIX."""
    return sequence(oid(f"1.3.6.1.5.5.7.48.{method}"), location(uri))


class Authority(NamedTuple):
    """Who issues: its keys, the place of its certificate, its folder, and its policy."""

    key: Key
    certificate: str
    folder: str

    def crl(self) -> str:
        """The place of its CRL."""
        return f"{self.folder}ca.crl"

    def manifest(self) -> str:
        """The place of its manifest."""
        return f"{self.folder}ca.mft"


class Resources(NamedTuple):
    """The values of the two resource extensions, None for one that is missing, and the policy for them."""

    ip: bytes | None
    asn: bytes | None
    policy: str = "refuse"

    def extensions(self) -> bytes:
        """The extensions, and the one of the certificate policy."""
        policy, *names = POLICIES[self.policy]
        values = zip(names, (self.ip, self.asn), strict=True)
        return extension("2.5.29.32", sequence(sequence(oid(policy))), True) + b"".join(
            extension(name, value, True) for name, value in values if value is not None
        )


def families(value: bytes) -> bytes:
    """IP address blocks in which both families have a value."""
    return sequence(*(sequence(tlv(4, bytes([0, family])), value) for family in (1, 2)))


def everything(policy: str = "refuse") -> Resources:
    """All resources."""
    asn = sequence(tlv(0xA0, sequence(sequence(integer(0), integer(0xFFFFFFFF)))))
    return Resources(families(sequence(bits(b""))), asn, policy)


def inherited(policy: str = "refuse") -> Resources:
    """Those of the issuer."""
    return Resources(families(tlv(5)), sequence(tlv(0xA0, tlv(5))), policy)


def certificate(serial: int, key: Key, more: bytes, resources: Resources, issuer: Authority | None = None) -> bytes:
    """A certificate with further extensions, signed by its issuer or by itself."""
    by = issuer.key if issuer else key
    parts = more + extension("2.5.29.14", tlv(4, key.identifier)) + resources.extensions()
    if issuer:
        parts += extension("2.5.29.35", sequence(tlv(0x80, by.identifier)))
        parts += extension("2.5.29.31", sequence(sequence(tlv(0xA0, tlv(0xA0, location(issuer.crl()))))))
        parts += extension("1.3.6.1.5.5.7.1.1", sequence(access("2", issuer.certificate)))
    lasts = sequence(time(SINCE), time(UNTIL))
    head = tlv(0xA0, integer(2)) + integer(serial) + algorithm(SIGNATURE) + by.name + lasts + key.name + key.info
    return by.signed(sequence(head, tlv(0xA3, sequence(parts))))


def of_authority(serial: int, to: Authority, resources: Resources, issuer: Authority | None = None) -> bytes:
    """The certificate of an authority."""
    places = sequence(access("5", to.folder), access("10", to.manifest()))
    more = extension("2.5.29.19", sequence(tlv(1, b"\xff")), True) + extension("2.5.29.15", bits(b"\x06", 1), True)
    return certificate(serial, to.key, more + extension("1.3.6.1.5.5.7.1.11", places), resources, issuer)


def crl(by: Authority) -> bytes:
    """A CRL that revokes nothing."""
    more = extension("2.5.29.35", sequence(tlv(0x80, by.key.identifier))) + extension("2.5.29.20", integer(1))
    lasts = time(SINCE) + time(UNTIL)
    head = integer(1) + algorithm(SIGNATURE) + by.key.name + lasts
    return by.key.signed(sequence(head, tlv(0xA0, sequence(more))))


def signed_object(place: str, kind: str, content: bytes, resources: Resources, by: Authority, key: Key) -> bytes:
    """A signed object (RFC 6488), with a certificate for its key."""
    more = extension("2.5.29.15", bits(b"\x80", 7), True)
    more += extension("1.3.6.1.5.5.7.1.11", sequence(access("11", place)))
    serial = int.from_bytes(hashlib.sha256(place.encode()).digest()[:8], "big")
    ee = certificate(serial, key, more, resources, by)
    attributes = (
        sequence(oid("1.2.840.113549.1.9.3"), set_of(oid(kind))),
        sequence(oid("1.2.840.113549.1.9.4"), set_of(tlv(4, hashlib.sha256(content).digest()))),
        sequence(oid("1.2.840.113549.1.9.5"), set_of(time(SINCE))),
    )
    names = integer(3) + tlv(0x80, key.identifier) + sequence(oid(SHA256))
    signature = algorithm(RSA) + tlv(4, key.sign(set_of(*attributes)))
    signer = sequence(names, tlv(0xA0, *sorted(attributes)), signature)
    holds = sequence(oid(kind), tlv(0xA0, tlv(4, content)))
    data = sequence(integer(3), set_of(sequence(oid(SHA256))), holds, tlv(0xA0, ee), set_of(signer))
    return sequence(oid("1.2.840.113549.1.7.2"), tlv(0xA0, data))


def manifest(by: Authority, files: dict[str, bytes], key: Key, policy: str = "refuse") -> bytes:
    """A manifest of files."""
    entries = [
        sequence(tlv(0x16, name.encode()), bits(hashlib.sha256(octets).digest())) for name, octets in files.items()
    ]
    content = sequence(integer(1), time(SINCE, True), time(UNTIL, True), oid(SHA256), sequence(*entries))
    return signed_object(by.manifest(), "1.2.840.113549.1.9.16.1.26", content, inherited(policy), by, key)


def prefix_bits(prefix: str) -> bytes:
    """A prefix as a BIT STRING (RFC 3779, 2.2.3.8)."""
    network = ip_network(prefix)
    count = (network.prefixlen + 7) // 8
    return bits(network.network_address.packed[:count], 8 * count - network.prefixlen)


def owned(prefixes: list[str], policy: str = "refuse") -> Resources:
    """Some prefixes of IPv4, in order, which do not touch."""
    return Resources(sequence(sequence(tlv(4, b"\0\1"), sequence(*map(prefix_bits, prefixes)))), None, policy)


def roa(place: str, asn: int, vrps: list[tuple[str, int]], resources: Resources, by: Authority, key: Key) -> bytes:
    """A ROA of an AS number for prefixes with their maximum lengths, whose certificate has resources."""
    blocks = []
    for family in (1, 2):
        those = [it for it in vrps if (":" in it[0]) == (family == 2)]
        found = [sequence(prefix_bits(prefix), integer(most)) for prefix, most in those]
        if found:
            blocks.append(sequence(tlv(4, bytes([0, family])), sequence(*found)))
    content = sequence(integer(asn), sequence(*blocks))
    return signed_object(place, "1.2.840.113549.1.9.16.1.24", content, resources, by, key)


def tal(key: Key, place: str) -> str:
    """A TAL."""
    return f"{place}\n\n{base64.encodebytes(key.info).decode()}"


class Repository:
    """A folder with the files of a repository, at the places of their names."""

    def __init__(self, folder: Path) -> None:
        self.folder = folder
        self.anchor = Authority(Key("anchor"), f"{ROOT}anchor.cer", f"{ROOT}anchor/")
        self.tal = folder / "anchor.tal"
        self.tal.write_text(tal(self.anchor.key, self.anchor.certificate))

    def local(self, place: str) -> Path:
        """The file of a place."""
        return self.folder / place.removeprefix("rsync://")

    def write(self, place: str, octets: bytes) -> None:
        """Writes a file."""
        self.local(place).parent.mkdir(parents=True, exist_ok=True)
        self.local(place).write_bytes(octets)

    def write_anchor(self) -> None:
        """Writes the trust anchor, which has all resources, where a relying party has it in its cache."""
        octets = of_authority(1, self.anchor, everything())
        self.write(self.anchor.certificate, octets)
        self.write(f"ta/anchor/{self.anchor.certificate.rpartition('/')[2]}", octets)

    def publish(self, by: Authority, files: dict[str, bytes], key: Key, policy: str = "refuse") -> None:
        """Writes the files of an authority, its CRL and its manifest."""
        files = files | {"ca.crl": crl(by)}
        for name, octets in (files | {"ca.mft": manifest(by, files, key, policy)}).items():
            self.write(by.folder + name, octets)
