#!/usr/bin/python3
"""certificates.py FOLDER: makes certificates with the extensions of RFC 3779 and RFC 8360 by openssl."""

import random
import subprocess
import sys
from pathlib import Path

OIDS = {"06082b06010505070107": ("ip", "refuse"), "06082b06010505070108": ("as", "refuse"),
        "06082b0601050507011c": ("ip", "trim"), "06082b0601050507011d": ("as", "trim")}
BASE = "1.3.6.1.5.5.7.1."
# For each certificate the OIDs of its extensions, and their values in DER: AS64496-AS64511 and 10.0.0.0/8; AS64496 and
# 10.0.0.0/9; AS64496, 10.2.0.0/16 and 12.0.0.0/8.
CERTIFICATES = {
    "anchor": ((8, "3010a00e300c300a020300fbf0020300fbff"), (7, "300c300a0402000130040302000a")),
    "good": ((8, "3009a0073005020300fbf0"), (7, "300d300b0402000130050303070a00")),
    "trimmed": ((29, "3009a0073005020300fbf0"), (28, "3011300f0402000130090303000a020302000c")),
}


def write(folder):
    """Writes the certificates as files of DER."""
    made = "openssl req -x509 -newkey ec -pkeyopt ec_paramgen_curve:prime256v1 -nodes -keyout /dev/null -days 9"
    for name, extensions in CERTIFICATES.items():
        words = [*made.split(), "-subj", f"/CN={name}", "-outform", "DER", "-out", folder / f"{name}.cer"]
        for oid, der in extensions:
            words += ["-addext", f"{BASE}{oid}=critical,DER:{bytes.fromhex(der).hex(':')}"]
        subprocess.run(words, check=True, capture_output=True)


def mutated(originals, count):
    """Yields certificates, each changed in one to three octets, cut, or with an octet more or less."""
    made = random.Random(3779)
    for at in range(count):
        octets = bytearray(made.choice(originals))
        for _ in range(made.randint(0, 3)):
            place, how = made.randrange(len(octets)), made.randrange(8)
            if how == 0:
                del octets[place]
            elif how == 1:
                octets.insert(place, made.randrange(256))
            elif how == 2 and at % 9 == 0:
                del octets[place:]
            elif how < 6:
                octets[place] = made.choice((0, 1, 0x30, 0x7f, 0x80, 0x81, 0x82, 0x84, 0xff, made.randrange(256)))
            octets = octets or bytearray(1)
        yield bytes(octets)


def value(octets, end):
    """Splits the front of octets into a tag, a content and the rest. Raises ValueError."""
    if len(octets) < 2 or end < 0:
        raise ValueError
    tag, first, size = octets[0], octets[1], 0
    if first > 0x80:
        size = first - 0x80
        if size > 4:
            raise ValueError
        length = int.from_bytes(octets[2:2 + size], "big")
    elif first == 0x80:
        raise ValueError
    else:
        length = first
    if 2 + size + length > len(octets):
        raise ValueError
    return tag, octets[2 + size:2 + size + length], octets[2 + size + length:]


def values(octets):
    """Returns the tags and contents of all values in octets."""
    found = []
    while octets:
        tag, content, octets = value(octets, len(octets))
        found.append((tag, content))
    return found


def of_tag(octets, tag):
    """Returns the values in octets that are one value with this tag."""
    found = values(octets)
    if len(found) != 1 or found[0][0] != tag:
        raise ValueError
    return values(found[0][1])


def reference(octets):
    """Returns the extensions and the mode of a certificate by a second walk, or None if it is refused."""
    try:
        signed, *_ = of_tag(octets, 0x30)
        if signed[0] != 0x30:
            raise ValueError
        tag, wrapped = values(signed[1])[-1]
        if tag != 0xA3:
            raise ValueError
        found = {}
        for tag, extension in of_tag(wrapped, 0x30):
            if tag != 0x30:
                raise ValueError
            parts = values(extension)
            if not parts or parts[0][0] != 6 or len(parts[0][1]) != 8:
                continue
            named = OIDS.get("0608" + parts[0][1].hex())
            if not named:
                continue
            if parts[-1][0] != 4 or named[0] in found:
                raise ValueError
            found[named[0]] = (parts[-1][1].hex(), named[1])
        modes = {mode for _, mode in found.values()}
        if len(modes) != 1:
            raise ValueError
        return [found["as"][0] if "as" in found else None, found["ip"][0] if "ip" in found else None, modes.pop()]
    except (ValueError, IndexError):
        return None


if __name__ == "__main__":
    write(Path(sys.argv[1]))
