#!/usr/bin/env python3
"""relying_parties.py rpki-client|fort [OPTION ..]: asks a relying party, unmodified. The options are compare.py's.

The program reads a repository from its cache, without a network. The trust anchor of the repository has all resources.

- Each case of der_as and der_ip is a certificate, and each one of verify_path is a path of certificates. The program
  accepts a certificate if rpki-client -f prints `Validation: OK`, or if FORT's log says that it reads the manifest. The
  resources that the program prints are compared. Of a path that is refused the index is compared.
- All VRPs of the valid cases of vrp_files are in ROAs. The program writes them as CSV and as JSON. A case
  agrees if both files have its VRPs, and no VRP that is in no case.

RPKI_CLIENT and FORT name the programs. It needs openssl too. The status is 77 if a program is missing."""

import csv
import json
import os
import re
import shutil
import subprocess
import sys
import tempfile
from collections.abc import Iterable, Iterator
from ipaddress import ip_address, ip_network
from pathlib import Path
from typing import NamedTuple

import repository
from compare import NOT_APPLICABLE, Answer, Case, run, skip, vrp_texts
from repository import Authority, Key, Repository, Resources

EMPTY = Resources(None, None)
# If a certificate of a path lists nothing of the kind, all of the path have the other extension, with `inherit`.
OTHER = repository.inherited()
# What the probe below the last certificate of a path claims.
MISSING: Case = {"claim": "missing", "octets": None, "policy": "refuse"}
INHERITED: dict[str, Case] = {
    kind: {"claim": "inherit", "octets": octets, "policy": "refuse"}
    for kind, octets in (("as", "3004a0020500"), ("v4", "30083006040200010500"), ("v6", "30083006040200020500"))
}
# No program reads longer paths: rpki-client allows 12 certificates.
LONGEST = 10
BATCH = 400
Blocks = list[tuple[int, int]]


class Found(NamedTuple):
    """What a program prints of a certificate: whether it is accepted, the blocks of each kind, and which inherit."""

    is_accepted: bool
    blocks: dict[str, Blocks]
    inherits: list[str]


def merged(blocks: Blocks) -> Blocks:
    """The ranges of blocks, in order."""
    found: Blocks = []
    for first, last in sorted(blocks):
        if found and first <= found[-1][1] + 1:
            found[-1] = found[-1][0], max(last, found[-1][1])
        else:
            found.append((first, last))
    return found


def block(text: str) -> tuple[str, tuple[int, int]]:
    """The kind of a block, and its range."""
    first, _, last = re.sub(r"\s*--?\s*", " ", text.replace("AS", "")).partition(" ")
    if "." not in first and ":" not in first:
        return "as", (int(first), int(last or first))
    if last:
        return "v6" if ":" in first else "v4", (int(ip_address(first)), int(ip_address(last)))
    network = ip_network(first)
    return f"v{network.version}", (int(network[0]), int(network[-1]))


def wanted_of(expected: Case) -> dict[str, str | None]:
    """What is expected of each kind: a list, `inherit`, or None."""
    return {"as": expected.get("text"), "v4": expected.get("v4"), "v6": expected.get("v6")}


def of_value(case: Case, found: Found) -> Answer:
    """The answer to a value of DER: its canonical octets, or the blocks that are printed in their place."""
    if not found.is_accepted:
        return "refuse", None
    wanted = wanted_of(case["expected"])
    lists = {kind: it for kind, it in wanted.items() if it not in (None, "inherit")}
    blocks = {kind: merged([block(it)[1] for it in text.split(", ")]) for kind, text in lists.items() if text}
    inherits = [kind for kind, it in wanted.items() if it == "inherit"]
    is_same = blocks == {kind: merged(it) for kind, it in found.blocks.items()}
    # rpki-client does not say which family inherits
    is_same &= len(inherits) == len(found.inherits) if "ip" in found.inherits else inherits == found.inherits
    return "accept", case["expected"].get("canonical") if is_same else f"{found.blocks} {found.inherits}"


def of_path(case: Case, found: list[Found]) -> Answer:
    """The answer to a path, whose certificates a program prints; the first one is that of the trust anchor."""
    asked, expected, kind = case["input"], case["expected"], case["input"]["kind"]
    refused = [at for at, it in enumerate(found) if not it.is_accepted]
    if refused:
        index = min(refused[0], len(asked["certificates"])) - 1
        is_same = index == expected.get("certificate")
        return "refuse", f"{index} {expected['overclaimed']}" if is_same else f"{index}"
    claims = [asked["anchor"]["claim"], *(it["claim"] for it in asked["certificates"])]
    last = next((at for at in range(len(claims) - 1, -1, -1) if claims[at] != "inherit"), 0)
    blocks = merged(found[last].blocks.get(kind, []))
    text = expected.get("text", "")
    is_same = blocks == merged([block(it)[1] for it in text.split(", ")] if text else [])
    return "accept", text if is_same else f"{blocks}"


Vrp = tuple[int, str, int]


def vrp_of(asn: int | str, prefix: str, most: int | str) -> Vrp:
    """A VRP, whose prefix has one form."""
    return int(f"{asn}".removeprefix("AS")), f"{ip_network(prefix)}", int(most)


def vrps_of(text: str) -> set[Vrp]:
    """The VRPs of a file that a program writes."""
    if text.startswith("{"):
        return {vrp_of(it["asn"], it["prefix"], it["maxLength"]) for it in json.loads(text)["roas"]}
    return {vrp_of(*row[:3]) for row in csv.reader(text.splitlines()[1:])}


class RpkiClient:
    """rpki-client: `-f` prints a certificate, and validates it.

    It compares the resources of all certificates but the one that it is asked about: each path ends with a probe, which
    inherits them.
    """

    has_trim, has_probe = False, True

    def __init__(self, program: str) -> None:
        self.program = program

    def ask(self, made: Repository, places: list[str]) -> dict[str, Found]:
        """What the program prints of certificates."""
        paths = [f"{made.local(it)}" for it in places]
        words = [self.program, "-d", f"{made.folder}", "-t", f"{made.tal}", "-f", *paths]
        said = subprocess.run(words, capture_output=True, check=False).stdout.decode()
        found = {}
        for part in re.split(r"^File: +", said, flags=re.MULTILINE)[1:]:
            blocks: dict[str, Blocks] = {}
            inherits = []
            for kind, text in re.findall(r"\b(AS|IP): ([^,\n]+)", part.partition("\nSubordinate resources:")[2]):
                if text == "inherit":
                    inherits.append(kind.lower())
                else:
                    name, it = block(text)
                    blocks.setdefault(name, []).append(it)
            found[part.split("\n")[0]] = Found(bool(re.search(r"\nValidation: +OK\n", part)), blocks, inherits)
        return {place: found[path] for place, path in zip(places, paths, strict=True) if path in found}

    def values(self, made: Repository, places: list[str]) -> list[Found | None]:
        """What the program prints of many certificates that have one issuer. None: the program ends at it."""
        found: dict[str, Found] = {}
        for at in range(0, len(places), BATCH):
            found |= self.ask(made, places[at : at + BATCH])
        return [found.get(it) or self.ask(made, [it]).get(it) for it in places]

    def paths(self, made: Repository, paths: list[list[str]]) -> Iterator[list[Found]]:
        """What the program prints of the certificates of paths: a run for each path, since paths share keys."""
        for path in paths:
            found = self.ask(made, path)
            yield [found.get(it, Found(False, {}, [])) for it in path]

    def files(self, made: Repository) -> list[str]:
        """The files of VRPs that the program writes."""
        written = made.folder / "written"
        written.mkdir()
        for it in (made.folder, *made.folder.rglob("*")):
            it.chmod(0o777)  # as root the program becomes another user
        words = [self.program, "-n", "-c", "-j", "-d", f"{made.folder}", "-t", f"{made.tal}", f"{written}"]
        subprocess.run(words, capture_output=True, check=False)
        return [(written / it).read_text() for it in ("csv", "json")]


class Fort:
    """FORT: the log of a validation has the resources of each certificate, and the errors."""

    has_trim, has_probe = True, False

    def __init__(self, program: str) -> None:
        self.program = program

    def log(self, made: Repository, *more: str) -> str:
        """The log of a validation."""
        words = ["--mode=standalone", "--work-offline=true", f"--tal={made.tal}", f"--local-repository={made.folder}"]
        words += ["--log.output=console", "--validation-log.enabled=true", "--validation-log.output=console"]
        words += ["--validation-log.level=debug", *more]
        ran = subprocess.run([self.program, *words], stdout=subprocess.PIPE, stderr=subprocess.STDOUT, check=False)
        if ran.returncode:
            print(f"{self.program}: status {ran.returncode}")
            sys.exit(2)
        return ran.stdout.decode()

    def ask(self, made: Repository, places: list[str]) -> list[Found]:
        """What the log has of certificates."""
        lines: dict[str, list[str]] = {}
        form = r"^.{15} ... \[Validation\]: (\S+\.cer): (.*)$"
        for place, text in re.findall(form, self.log(made), re.MULTILINE):
            lines.setdefault(place, []).append(text)
        return [found_in_log(lines.get(it, [])) for it in places]

    def values(self, made: Repository, places: list[str]) -> list[Found | None]:
        """What the log has of many certificates that have one issuer."""
        return [*self.ask(made, places)]

    def paths(self, made: Repository, paths: list[list[str]]) -> Iterator[list[Found]]:
        """What the log has of the certificates of paths."""
        found = iter(self.ask(made, [it for path in paths for it in path]))
        for path in paths:
            yield [next(found) for _ in path]

    def files(self, made: Repository) -> list[str]:
        """The files of VRPs that the program writes."""
        written, texts = made.folder / "written", []
        for it in ("csv", "json"):
            self.log(made, f"--output.roa={written}", f"--output.format={it}")
            texts.append(written.read_text())
        return texts


def found_in_log(lines: list[str]) -> Found:
    """What lines of the log say of a certificate: FORT reads the manifest of one that it accepts."""
    kinds = {"ASN": "as", "IPv4": "v4", "IPv6": "v6"}
    text = "\n".join(lines)
    blocks: dict[str, Blocks] = {}
    for it in re.findall(r"^(?:Prefix|Range|ASN): (.+)$", text, re.MULTILINE):
        name, found = block(it)
        blocks.setdefault(name, []).append(found)
    inherits = [kinds[it] for it in re.findall(r"^<Inherit (.+)>$", text, re.MULTILINE)]
    return Found("\nManifest '" in text, blocks, inherits)


PROGRAMS: dict[str, tuple[type[RpkiClient] | type[Fort], str]] = {
    "rpki-client": (RpkiClient, "RPKI_CLIENT"),
    "fort": (Fort, "FORT"),
}


class Asked:
    """A relying party, and the repositories that it is asked about."""

    def __init__(self, program: RpkiClient | Fort, folder: Path) -> None:
        self.program, self.folder = program, folder
        self.object_key = Key("object")
        self.keys = [Key(f"authority{at}") for at in range(LONGEST + 1)]

    def new(self, name: str) -> Repository:
        """A new repository."""
        (self.folder / name).mkdir()
        made = Repository(self.folder / name)
        made.write_anchor()
        return made

    def of_values(self, file: str, cases: list[Case]) -> Iterator[Answer]:
        """The answers to values of DER. All certificates have the same keys and publish the same files."""
        made = self.new(file)
        by, key = made.anchor, self.keys[0]
        files = {}
        for at, case in enumerate(cases):
            octets = bytes.fromhex(case["input"]["octets"])
            resources = Resources(None, octets) if file == "der_as" else Resources(octets, None)
            to = Authority(key, f"{by.folder}{at}.cer", f"{repository.ROOT}shared/")
            files[f"{at}.cer"] = repository.of_authority(at + 2, to, resources, by)
        made.publish(by, files, self.object_key)
        made.publish(to, {}, self.object_key)
        for case, found in zip(cases, self.program.values(made, [by.folder + it for it in files]), strict=True):
            yield of_value(case, found) if found else ("abort", None)

    def path(self, made: Repository, at: int, case: Case) -> list[Authority]:
        """The authorities of a path, the trust anchor of the case first."""
        asked, authorities, certificates = case["input"], [made.anchor], []
        claims = [{"policy": "refuse"} | asked["anchor"], *asked["certificates"]]
        if self.program.has_probe:
            claims.append(INHERITED[asked["kind"]] if claims[-1]["octets"] else MISSING)
        is_lacking = any(it["octets"] is None for it in claims)
        for depth, it in enumerate(claims):
            issuer = authorities[-1]
            to = Authority(self.keys[depth], f"{issuer.folder}{at}.cer", f"{repository.ROOT}{at}/{depth}/")
            octets = None if it["octets"] is None else bytes.fromhex(it["octets"])
            policy = it["policy"] if it["claim"] not in ("inherit", "missing") else "refuse"
            resources = {"asn" if asked["kind"] == "as" else "ip": octets, "policy": policy}
            if is_lacking:
                resources |= {"ip": OTHER.ip} if asked["kind"] == "as" else {"asn": OTHER.asn}
            certificates.append(repository.of_authority(at + 2, to, EMPTY._replace(**resources), issuer))
            authorities.append(to)
        for issuer, octets in zip(authorities[1:], [*certificates[1:], b""], strict=True):
            made.publish(issuer, {f"{at}.cer": octets} if octets else {}, self.object_key)
        made.write(authorities[1].certificate, certificates[0])
        return authorities[1:]

    def of_paths(self, cases: list[Case]) -> Iterator[Answer]:
        """The answers to paths. The trust anchor of a case is a certificate below the one of the repository."""
        made = self.new("paths")
        paths = {at: self.path(made, at, it) for at, it in enumerate(cases) if self.is_asked(it)}
        files = {f"{at}.cer": made.local(path[0].certificate).read_bytes() for at, path in paths.items()}
        made.publish(made.anchor, files, self.object_key)
        found = self.program.paths(made, [[it.certificate for it in path] for path in paths.values()])
        answers = dict(zip(paths, found, strict=True))
        for at, case in enumerate(cases):
            yield of_path(case, answers[at]) if at in answers else NOT_APPLICABLE

    def is_asked(self, case: Case) -> bool:
        """Whether the program reads such a path."""
        certificates = case["input"]["certificates"]
        lists = [it for it in certificates if it["claim"] not in ("inherit", "missing")]
        return len(certificates) < LONGEST and (self.program.has_trim or all(it["policy"] == "refuse" for it in lists))

    def of_files(self, cases: list[Case]) -> Iterator[Answer]:
        """The VRPs of each case that the program writes. All VRPs of an AS number are in one ROA."""
        made = self.new("vrps")
        to = Authority(self.keys[0], f"{made.anchor.folder}1.cer", f"{repository.ROOT}vrps/")
        texts = [case["expected"].get("vrps", []) for case in cases]
        lists = [[vrp_of(it["asn"], it["prefix"], it["maxLength"]) for it in vrps] for vrps in texts]
        by_asn: dict[int, list[tuple[str, int]]] = {}
        for asn, prefix, most in {it for vrps in lists for it in vrps}:
            by_asn.setdefault(asn, []).append((prefix, most))
        resources = repository.everything()._replace(asn=None)
        files = {
            f"{asn}.roa": repository.roa(f"{to.folder}{asn}.roa", asn, vrps, resources, to, self.object_key)
            for asn, vrps in by_asn.items()
        }
        made.publish(to, files, self.object_key)
        of_issuer = repository.of_authority(2, to, repository.everything(), made.anchor)
        made.publish(made.anchor, {"1.cer": of_issuer}, self.object_key)
        found = [*map(vrps_of, self.program.files(made))]
        more = {it for written in found for it in written}.difference(*lists)
        for text, vrps in zip(texts, lists, strict=True):
            differ = {it for it in vrps for written in found if it not in written} | more
            yield ("accept", f"differ: {sorted(differ)}" if differ else vrp_texts(text)) if vrps else NOT_APPLICABLE

    def answers(self, file: str, cases: list[Case]) -> Iterable[Answer]:
        """The answers to the cases of a file."""
        if file.startswith("der_"):
            return self.of_values(file, cases)
        others = {"verify_path": self.of_paths, "vrp_files": self.of_files}
        return others[file](cases) if file in others else [NOT_APPLICABLE] * len(cases)


def main(words: list[str]) -> int:
    """Compares a relying party with the vectors."""
    if not words or words[0] not in PROGRAMS:
        print(__doc__)
        return 2
    make, variable = PROGRAMS[words[0]]
    program = os.environ.get(variable) or shutil.which(words[0]) or ""
    for name, place in ((words[0], program), ("openssl", shutil.which("openssl"))):
        if not place:
            return skip(f"{name} is not on the PATH")
    with tempfile.TemporaryDirectory() as folder:
        Path(folder).chmod(0o755)  # rpki-client gives up the rights of root
        return run(words[0], Asked(make(program), Path(folder)).answers, words[1:])


if __name__ == "__main__":
    sys.exit(main(sys.argv[1:]))
