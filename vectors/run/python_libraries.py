#!/usr/bin/env python3
"""python_libraries.py LIBRARY [--show] [--only NAME] [--json FILE]: asks a Python library.

LIBRARY is pyasn1-modules (der_as and der_ip, by the DER decoder of pyasn1), ipaddress (text_ip of one address or
prefix, and prefix_cover), or netaddr (the same, and set_operations on addresses). The status is 77 if the library is
missing."""

import ipaddress
import sys
from collections.abc import Callable, Iterable
from importlib import import_module
from types import ModuleType
from typing import Any

from compare import NOT_APPLICABLE, Answer, Case, run, skip

REFUSED: Answer = ("refuse", None)


def modules(*names: str) -> list[ModuleType] | str:
    """Modules, or why one is missing."""
    try:
        return [import_module(name) for name in names]
    except ImportError as missing:
        return f"{missing}"


def of_pyasn1(decoder: ModuleType, rfc3779: ModuleType) -> Callable[[str, Case], Answer]:
    """What the decoder accepts: a value of the type, and nothing after it. The value is not compared."""
    specs = {"der_as": rfc3779.ASIdentifiers, "der_ip": rfc3779.IPAddrBlocks}

    def answer(file: str, case: Case) -> Answer:
        if file not in specs:
            return NOT_APPLICABLE
        try:
            _, rest = decoder.decode(bytes.fromhex(case["input"]["octets"]), asn1Spec=specs[file]())
        except Exception:  # noqa: BLE001, whatever it raises it refuses
            return REFUSED
        return REFUSED if rest else ("accept", None)

    return answer


def text_of(network: Any) -> str:
    """A network as the vectors write a block: an address alone has no length."""
    address, _, length = str(network).partition("/")
    return address if length in ("32", "128") and int(length) == network.max_prefixlen else f"{address}/{length}"


def bounds_of(text: str) -> tuple[str, str]:
    """The first and the last address of a range, or of a block that is no range."""
    first, _, last = text.partition("-")
    return first, last or first


def of_ipaddress(file: str, case: Case) -> Answer:
    """The networks of ipaddress."""
    asked = case["input"]
    if file == "prefix_cover":
        networks: list[Any] = []
        for block in asked["blocks"]:
            if "-" in block:
                networks += ipaddress.summarize_address_range(*map(ipaddress.ip_address, bounds_of(block)))
            else:
                networks.append(ipaddress.ip_network(block))
        return "accept", ", ".join(map(str, ipaddress.collapse_addresses(networks)))
    if file != "text_ip" or {*"-,"} & {*asked["text"]}:
        return NOT_APPLICABLE
    kind = ipaddress.IPv4Network if asked["family"] == "v4" else ipaddress.IPv6Network
    try:
        return "accept", text_of(kind(asked["text"], strict=False))
    except ValueError:
        return REFUSED


def of_netaddr(netaddr: ModuleType) -> Callable[[str, Case], Answer]:
    """The networks and sets of netaddr."""

    def networks(blocks: list[str]) -> Any:
        made = netaddr.IPSet()
        for block in blocks:
            made |= netaddr.IPSet(netaddr.IPRange(*bounds_of(block))) if "-" in block else netaddr.IPSet([block])
        return made

    def set_text(found: Any) -> str:
        texts = []
        for it in found.iter_ipranges():
            whole = it.cidrs()
            one = f"{whole[0].ip}" if whole[0].size == 1 else f"{whole[0]}"
            texts.append(one if len(whole) == 1 else str(it))
        return ", ".join(texts)

    def operation(asked: Case) -> Answer:
        left, right = networks(asked["left"]), networks(asked["right"])
        found: dict[str, Callable[[], str]] = {
            "union": lambda: set_text(left | right),
            "intersection": lambda: set_text(left & right),
            "difference": lambda: set_text(left - right),
            "contains": lambda: str(left >= right).lower(),
            "equal": lambda: str(left == right).lower(),
        }
        return "accept", found[asked["operation"]]()

    def answer(file: str, case: Case) -> Answer:
        asked = case["input"]
        if file == "prefix_cover":
            return "accept", ", ".join(map(str, networks(asked["blocks"]).iter_cidrs()))
        if file == "set_operations" and asked["kind"] != "as":
            return operation(asked)
        if file != "text_ip" or {*"-,"} & {*asked["text"]}:
            return NOT_APPLICABLE
        try:
            found = netaddr.IPNetwork(asked["text"], version=4 if asked["family"] == "v4" else 6).cidr
        except (ValueError, netaddr.AddrFormatError):
            return REFUSED
        return "accept", f"{found.ip}" if found.size == 1 else f"{found}"

    return answer


def main(words: list[str]) -> int:
    """Compares the library that the first word names."""
    needs = {
        "pyasn1-modules": ("pyasn1.codec.der.decoder", "pyasn1_modules.rfc3779"),
        "ipaddress": (),
        "netaddr": ("netaddr",),
    }
    if not words or words[0] not in needs:
        print(__doc__)
        return 2
    library = words[0]
    found = modules(*needs[library])
    if isinstance(found, str):
        return skip(found)
    makers: dict[str, Callable[..., Callable[[str, Case], Answer]]] = {
        "pyasn1-modules": of_pyasn1,
        "ipaddress": lambda: of_ipaddress,
        "netaddr": of_netaddr,
    }
    answer = makers[library](*found)

    def answers(file: str, cases: list[Case]) -> Iterable[Answer]:
        return (answer(file, case) for case in cases)

    return run(library, answers, words[1:])


if __name__ == "__main__":
    sys.exit(main(sys.argv[1:]))
