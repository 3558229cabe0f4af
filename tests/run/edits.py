#!/usr/bin/env python3
"""edits.py [CRATE ..] [CRATE/EDIT ..]: tries the mutations of `must-fail/` and `edits/` of crates by `rt ci`.

The prover has to refuse each mutation. Without a name the script takes the crates whose code or mutations differ from
the commit at which the branch left `main`, and the crates that depend on such code. With --all it takes every crate. It
works in a copy. rt ci takes proofs and results that it stored on this machine, and stores new ones.

The script prints one of these results for each mutation, with the prover's line:
  refused at a goal         a clause, an invariant, a precondition or a bound is not proved, or a written proof fails
  refused by a limit alone  the prover stopped at a limit of its own, and gave no verdict
  refused for a name alone  a proof names what the mutation took away, so the result says little about the contract
  PROVED                    a fault: the crate is still proved with the mutation
  BAD EDIT                  a fault: the mutation can't be applied, compiled or read
  NOT TRIED                 a fault: the crate is not proved without the mutation, or the check had no result

The last line counts the results, for example '9 refused (8 at a goal, 1 for a name alone), 0 not'. The status is 1 if
a mutation is not refused. RT_JOBS limits how many checks rt ci runs side by side."""

import os
import re
import shutil
import signal
import subprocess
import sys
import tempfile
import time
from collections import Counter
from contextlib import suppress
from pathlib import Path
from types import SimpleNamespace

from top import TOP
from groups import below, stands_on
from source_edits import FOLDERS, TRIED_BY_THE_KIT, edits_of

CODE = ("src", "specs", "proofs")
# Each result, and the beginning of what rt ci prints of such a mutation. Any other text is that of the last result.
RESULTS = {
    "refused at a goal": r"refused, as it must be(?! \()",
    "refused by a limit alone": r"refused, as it must be \(only by a limit",
    "refused for a name alone": r"refused, as it must be \(only because a proof file names",
    "PROVED": "NOT REFUSED",
    "BAD EDIT": "BAD EDIT",
    "NOT TRIED": "",
}
LABEL = re.compile(r"[^:(]*(\(only [^)]*\))?:? ?")


def git(*words: str) -> list[str]:
    """Returns the lines that git prints."""
    ran = subprocess.run(["git", "-C", TOP, *words], capture_output=True, text=True)
    if ran.returncode:
        sys.exit(f"edits.py: {ran.stderr.strip()}: name crates, or pass --all")
    return ran.stdout.splitlines()


def start() -> str:
    """Returns the commit at which the branch left `main`, that of `origin` if there is one."""
    mains = git("for-each-ref", "--format=%(refname)", "refs/remotes/origin/main", "refs/heads/main")
    return git("merge-base", "HEAD", *mains[-1:])[0]


def changed() -> set[str]:
    """Returns the crates whose code or mutations changed since `main`, and those that depend on changed code."""
    files = git("diff", "--name-only", "--no-renames", start(), "--", "crates")
    files += git("ls-files", "--others", "--exclude-standard", "--", "crates")
    parts = [it.split("/")[1:3] for it in files if it.count("/") > 1]
    code = {crate for crate, part in parts if part in CODE}
    own = code | {crate for crate, part in parts if part in FOLDERS}
    return {it for it in stands_on() if it in own or code & below(it)}


def chosen(names: list[str], is_all: bool) -> dict[str, list[Path]]:
    """Returns the mutations to try of each crate, lowest crates first."""
    crates = sorted(stands_on(), key=lambda it: len(below(it)))
    every = {it: edits_of(SimpleNamespace(folder=TOP / "crates" / it)) for it in crates}
    if unknown := {*names} - {*every} - {f"{crate}/{it.stem}" for crate, edits in every.items() for it in edits}:
        sys.exit(f"edits.py: no crate, and no mutation of a crate: {', '.join(sorted(unknown))}")
    wanted = {*names} if names else {*every} if is_all else changed()
    found = {crate: [it for it in edits if {crate, f"{crate}/{it.stem}"} & wanted] for crate, edits in every.items()}
    for crate, edits in found.items():
        if len({it.name for it in edits}) < len(edits):
            sys.exit(f"edits.py: {crate} has two mutations with one name: {' '.join(sorted(it.name for it in edits))}")
    return {crate: edits for crate, edits in found.items() if edits}


def said_by_rt(crate: str, room: Path) -> str:
    """Returns what rt ci prints for a crate of the copy. A signal to this script also ends all that rt started."""
    how = {"stdin": subprocess.DEVNULL, "stdout": subprocess.PIPE, "stderr": subprocess.STDOUT, "errors": "replace"}
    env = os.environ | {"TMPDIR": str(room)}
    with subprocess.Popen(["rt", "ci", crate], cwd=room / "copy", env=env, **how) as rt:
        try:
            return rt.communicate()[0]
        except BaseException:
            rt.send_signal(signal.SIGINT)  # rt ends the program that it runs
            with suppress(subprocess.TimeoutExpired):
                rt.wait(2)
            rt.kill()
            time.sleep(1)  # the checks end soon after rt
            raise


def tried(crate: str, edits: list[Path], room: Path) -> Counter[str]:
    """Tries mutations of a crate in the copy, and prints their results. Returns how many there are of each."""
    folder = room / "copy" / "crates" / crate / TRIED_BY_THE_KIT
    folder.mkdir()
    for edit in edits:
        shutil.copy(edit, folder)
    said = said_by_rt(crate, room)
    shutil.rmtree(folder)  # otherwise rt ci would also try them for each crate that depends on this one
    texts = dict(re.findall(r"(?ms)^rt: must-fail \w+/(\S+): (.*?)(?=^rt: |\Z)", said))
    failed = " ".join(re.findall(r"(?m)^rt: (\w+)(?:: its tests are)? NOT PROVED$", said))
    if {it.name for it in edits} - {*texts}:
        print(said, flush=True)
    counts: Counter[str] = Counter()
    for edit in edits:
        text = texts.get(edit.name, f"NOT TRIED: rt ci {f'did not prove {failed}' if failed else 'printed no result'}")
        result = next(it for it, begin in RESULTS.items() if re.match(begin, text))
        line = " ".join(LABEL.sub("", text, count=1).split())
        print(f"{crate}/{edit.parent.name}/{edit.name}: {result}: {line}", flush=True)
        counts[result] += 1
    return counts


def tried_in_copy(picked: dict[str, list[Path]]) -> Counter[str]:
    """Copies the crates without mutations, and tries the picked ones. Returns how many there are of each result."""
    with tempfile.TemporaryDirectory(prefix="edits-", ignore_cleanup_errors=True) as name:
        room = Path(name)
        room.chmod(0o711)  # rt runs programs as nobody
        ignored = shutil.ignore_patterns("out", *FOLDERS)
        shutil.copytree(TOP / "crates", room / "copy" / "crates", symlinks=True, ignore=ignored)
        for file in ("crates.txt", "HANDLES"):
            shutil.copy(TOP / file, room / "copy")
        return sum((tried(crate, edits, room) for crate, edits in picked.items()), Counter())


def main(words: list[str]) -> int:
    if "--help" in words:
        print(__doc__)
        return 0
    for it in (signal.SIGINT, signal.SIGTERM, signal.SIGHUP):
        signal.signal(it, lambda number, _: sys.exit(128 + number))
    names = [it for it in words if it != "--all"]
    picked = chosen(names, "--all" in words)
    print(f"trying the mutations of {len(picked)} crates: {' '.join(picked)}", flush=True)
    counts = tried_in_copy(picked)
    refused = {it: counts[it] for it in RESULTS if it.startswith("refused ") and counts[it]}
    left = counts.total() - sum(refused.values())
    kinds = ", ".join(f"{count} {it.removeprefix('refused ')}" for it, count in refused.items())
    print(f"{sum(refused.values())} refused{f' ({kinds})' if kinds else ''}, {left} not")
    return 1 if left else 0


if __name__ == "__main__":
    sys.exit(main(sys.argv[1:]))
