#!/usr/bin/env python3
"""fort_slurm.py [COUNT]: compares FORT with this project's reference on SLURM files (RFC 8416) that are made at random.

The files and what they do to 60 VRPs come from tests/reference, which the archive of the vectors does not have. FORT
runs once for each of COUNT files, 200 if no number is given. It prints the files that differ. The status is 1 if one
differs, and 77 if FORT, openssl or the reference is missing. FORT names the program."""

import os
import shutil
import subprocess
import sys
import tempfile
from pathlib import Path
from typing import Any

from compare import skip
from relying_parties import Vrp, vrp_of, vrps_of
from repository import ROOT, Authority, Key, Repository, everything, of_authority, roa

TESTS = Path(__file__).resolve().parent.parent.parent / "tests"
sys.path.append(str(TESTS))


def of_reference(vrp: Any) -> Vrp:
    """A VRP of the reference."""
    return vrp_of(vrp.asn, vrp.prefix.prefix.text(), vrp.prefix.max_length)


def published(folder: Path, vrps: set[Vrp]) -> Repository:
    """A repository with a ROA for each AS number of VRPs."""
    made, key = Repository(folder), Key("object")
    to = Authority(Key("authority"), f"{made.anchor.folder}1.cer", f"{ROOT}vrps/")
    by_asn: dict[int, list[tuple[str, int]]] = {}
    for asn, prefix, most in sorted(vrps):
        by_asn.setdefault(asn, []).append((prefix, most))
    owns = everything()._replace(asn=None)
    files = {f"{asn}.roa": roa(f"{to.folder}{asn}.roa", asn, them, owns, to, key) for asn, them in by_asn.items()}
    made.write_anchor()
    made.publish(to, files, key)
    made.publish(made.anchor, {"1.cer": of_authority(2, to, everything(), made.anchor)}, key)
    return made


def written(program: str, made: Repository, slurm: bytes) -> set[Vrp] | None:
    """The VRPs that FORT writes with a SLURM file. None: it reports an error about the file, or ends at it."""
    file, output = made.folder / "file.slurm", made.folder / "written"
    file.write_bytes(slurm)
    words = ["--mode=standalone", "--work-offline=true", f"--tal={made.tal}", f"--local-repository={made.folder}"]
    words += ["--log.output=console", f"--slurm={file}", f"--output.roa={output}"]
    ran = subprocess.run([program, *words], stdout=subprocess.PIPE, stderr=subprocess.STDOUT, check=False)
    is_refused = ran.returncode != 0 or b" ERR" in ran.stdout
    return None if is_refused else vrps_of(output.read_text())


def main(words: list[str]) -> int:
    """Compares FORT with the reference."""
    program = os.environ.get("FORT") or shutil.which("fort") or ""
    needed = {"fort": program, "openssl": shutil.which("openssl"), "tests/reference": TESTS.is_dir()}
    for name, is_there in needed.items():
        if not is_there:
            return skip(f"{name} is missing")
    from reference import slurm
    from reference.faults import Fault
    from reference.random_vrps import Maker

    maker, count = Maker(7), int(words[0]) if words else 200
    vrps = [maker.vrp() for _ in range(60)]
    refused = differ = 0
    with tempfile.TemporaryDirectory() as folder:
        made = published(Path(folder), {*map(of_reference, vrps)})
        for _ in range(count):
            file = maker.slurm()
            try:
                them = slurm.read(file).applied(vrps)
                expected = {*map(of_reference, them)}
            except Fault:
                expected = None
            refused += expected is None
            if written(program, made, file) != expected:
                differ += 1
                print(file.decode(errors="replace"))
    print(f"fort: {count} SLURM files, {count - differ} agree, {differ} differ, {refused} have to be refused")
    return 1 if differ else 0


if __name__ == "__main__":
    sys.exit(main(sys.argv[1:]))
