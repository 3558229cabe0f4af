#!/usr/bin/env python3
"""make.py: tests what web/make writes and refuses, in a small copy of the repository, beside a kit that proves nothing.

The status is 1 if a test failed.
"""

import os
import shutil
import subprocess
import sys
import tempfile
from pathlib import Path

TOP = Path(__file__).resolve().parent.parent.parent
FILES = ("LICENSE", "VERSION", "foreign/texts.txt", "foreign/c/exports.map", "foreign/c/memory.c", "foreign/c/texts.c",
         "foreign/js/memory.c", "foreign/js/shifts.c", "web/make")
# rt says what the files of its kit say for a target, and hands an LLVM module to the clang of its own folder.
RT = """#!/bin/sh
[ "$1" = lib ] && kit=$(dirname "$(dirname "$0")") || exit 9
echo "$*" >>"$KIT/runs"
[ $# -gt 1 ] || { mkdir -p out && cd out && : >module.bc && "$kit/toolchain/bin/clang" -o it.o; } || exit 9
cat "$KIT/said/${3-x86_64}"
[ "${3-}" != wasm64-unknown-unknown ] && [ ! -e "$KIT/fails" ]
"""
# Each other tool writes its output, and wasm-opt that of a file.
TOOL = """#!/bin/sh
for word; do [ "${before-}" != -o ] || out=$word; before=$word; done
if [ "$out" = - ]; then echo 'define i32 @pigy_version() {'; else echo tool >"$out"; fi
"""
WASM_OPT = TOOL.replace("echo tool", 'cat "$KIT/octets"')
VERDICT = "logic=proved functions={} target={} sum=0123\n"
TARGETS = {"x86_64": "x86_64-unknown-linux-gnu"} | {
    it: it for it in ("aarch64-unknown-linux-gnu", "wasm64-unknown-unknown")}


class Copy:
    """A copy of what web/make reads, with a crate of one file, and the kit."""

    def __init__(self, folder):
        self.top, self.kit = folder / "copy", folder / "kit"
        for name in FILES:
            (self.top / name).parent.mkdir(parents=True, exist_ok=True)
            shutil.copy(TOP / name, self.top / name)
        self.write("crates.txt", "pigyelund_c staticlib: low\nlow:\nother:\n")
        for name in ("pigyelund_c", "low", "other"):
            self.write(f"crates/{name}/src/lib.rt", f"//! {name}\n")
        self.write("docs/VERDICTS", "old\n")
        self.write(".gitignore", "out\n")
        self.make_kit()
        self.git("init", "-q")
        self.commit()

    def make_kit(self):
        shutil.rmtree(self.kit, ignore_errors=True)
        tools = [f"toolchain/bin/{it}" for it in ("clang", "ld.lld")]
        for name, text in {"bin/rt": RT, "bin/rtlib.py": "", "wasm/wasm-opt": WASM_OPT, "octets": "first"}.items():
            self.write(self.kit / name, text)
        for name in tools:
            self.write(self.kit / name, TOOL)
        for name, target in TARGETS.items():
            self.write(self.kit / "said" / name, VERDICT.format(7, target))
        for name in ("bin/rt", "wasm/wasm-opt", *tools):
            (self.kit / name).chmod(0o755)

    def write(self, name, text):
        path = self.top / name
        path.parent.mkdir(parents=True, exist_ok=True)
        path.write_text(text)

    def git(self, *words):
        command = ["git", "-c", "user.name=Nobody", "-c", "user.email=nobody@rpki.net", "-C", self.top, *words]
        return subprocess.run(command, check=True, stdout=subprocess.PIPE, text=True).stdout

    def commit(self, *words):
        self.git("add", "-A")
        self.git("commit", "-q", "--allow-empty", "-m", "copy", *words)

    def make(self, *words):
        """Runs web/make. Returns its status, what it prints, and which libraries it had rt build."""
        (self.kit / "runs").unlink(missing_ok=True)
        places = {"KIT": str(self.kit), "PATH": f"{self.kit / 'wasm'}:{os.environ['PATH']}"}
        ran = subprocess.run([self.top / "web" / "make", *words], env=os.environ | places, stdout=subprocess.PIPE,
                             stderr=subprocess.STDOUT, text=True)
        runs = (self.kit / "runs").read_text().split("\n")[:-1] if (self.kit / "runs").exists() else []
        return ran.returncode, ran.stdout, runs


def check(what, holds, said=""):
    check.count += 1
    if not holds:
        check.failed += 1
        print(f"FAILED  {what}: {said}")


check.count = check.failed = 0
RUNS = ["lib --target aarch64-unknown-linux-gnu", "lib --target wasm64-unknown-unknown", "lib"]


def of_writing(copy):
    """The files that it writes, and that a check of them passes and writes nothing, also after other commits."""
    status, said, runs = copy.make()
    verdicts = (copy.top / "docs" / "VERDICTS").read_text().splitlines()
    check("it writes", status == 0 and runs == RUNS, (said, runs))
    check("three verdicts", ["aarch64" in verdicts[0], "wasm64" in verdicts[1], "x86_64" in verdicts[2], len(verdicts)]
          == [True, True, True, 3], verdicts)
    commit = copy.git("rev-parse", "--short=8", "HEAD").strip()
    check("their commit", all(f", commit {commit}, logic=proved " in it for it in verdicts[:2]), verdicts)
    check("the commit of the module", f'"commit": "{commit}"' in (copy.top / "web" / "module.js").read_text())
    copy.commit()
    for words, expected in ((("--check",), RUNS), (("--sources",), [])):
        status, said, runs = copy.make(*words)
        check(f"{words} after the commit", status == 0 and runs == expected, (said, runs))
    copy.write("crates/other/src/lib.rt", "//! changed\n")
    copy.write("docs/more.md", "changed\n")
    copy.commit()
    status, said, _ = copy.make("--check")
    check("a check after other changes", status == 0, said)
    check("a check writes nothing", copy.git("status", "--porcelain") == "", copy.git("status", "--porcelain"))
    status, said, runs = copy.make("--to", str(copy.kit / "to.js"))
    check("--to", status == 0 and runs == ["lib"] and not copy.git("status", "--porcelain"), said)
    for words in (("--check", "--try"), ("--check", "--to", "x"), ("--sources", str(copy.kit))):
        check(f"{words} is refused", copy.make(*words)[0] == 2)


def of_refusals(copy):
    """What a check refuses. Each case begins with the files that web/make wrote, and with the kit that built them."""
    before = copy.git("rev-parse", "HEAD").strip()
    module, verdicts = "web/module.js", "docs/VERDICTS"

    def said(name, old, new):
        copy.write(name, (copy.top / name).read_text().replace(old, new, 1))

    octets, lines, unproved = "facts: sha256, base64", "VERDICTS has other lines", "proves or builds no library"
    cases = (
        ("a source", "sources changed since the commit", lambda: said("crates/low/src/lib.rt", "low", "moon"), []),
        ("a new source", "sources changed since the commit", lambda: copy.write("crates/low/proofs/a.antt", ""), []),
        ("a lost source", "crates/low/src/lib.rt", lambda: (copy.top / "crates/low/src/lib.rt").unlink(), []),
        ("a file of C", "foreign/js/memory.c", lambda: said("foreign/js/memory.c", "\n", "\n\n"), []),
        ("a text", "foreign/texts.txt", lambda: said("foreign/texts.txt", "0 done", "0 moon"), []),
        ("another digest", "the digest is another", lambda: said(module, '"sources": "', '"sources": "0'), []),
        ("an unknown commit", "HEAD does not have the", lambda: said(module, '"commit": "', '"commit": "0'), []),
        ("other octets", octets, lambda: copy.write(copy.kit / "octets", "second"), RUNS),
        ("another file", "other facts: base64", lambda: said(module, '"base64": "', '"base64": "AAAA'), RUNS),
        ("another sum", "other facts: sha256", lambda: said(module, '"sha256": "', '"sha256": "0'), RUNS),
        ("another verdict", "facts: verdict", lambda: said(copy.kit / "said/x86_64", "functions=7", "functions=8"),
         RUNS),
        ("a module without proof", "other facts: proved", lambda: said(module, "true", "false"), RUNS),
        ("another version", "other facts: version", lambda: said("VERSION", "\n", "9\n"), RUNS),
        *((f"another verdict for {it}", lines, lambda it=it:
           said(copy.kit / "said" / it, "functions=7", "functions=8"), RUNS) for it in [*TARGETS][1:]),
        ("another commit of a verdict", lines, lambda: said(verdicts, "commit ", "commit 0"), RUNS),
        ("a line more", lines, lambda: said(verdicts, "web/", "x\nweb/"), RUNS),
        ("no verdicts", lines, lambda: copy.write(verdicts, ""), RUNS),
        *((f"no proof for {it}", unproved, lambda it=it:
           said(copy.kit / "said" / it, "logic=proved", "logic=not-proved"), None) for it in TARGETS),
        *((f"two verdicts for {it}", unproved, lambda it=it:
           copy.write(copy.kit / "said" / it, VERDICT + "logic=built\n"), None) for it in TARGETS),
        ("a verdict for another target", unproved, lambda: said(copy.kit / "said/x86_64", "x86_64", "x86_65"), RUNS),
        ("no verdict", unproved, lambda: copy.write(copy.kit / "said/wasm64-unknown-unknown", ""), RUNS[:2]),
        ("no library", unproved, lambda: copy.write(copy.kit / "fails", ""), RUNS[:1]),
    )
    for what, wanted, change, expected in cases:
        change()
        copy.commit()
        status, found, runs = copy.make("--check")
        check(f"{what} is refused", status == 1 and wanted in found.splitlines()[-1], (status, found))
        check(f"{what}: what rt builds", expected is None or runs == expected, runs)
        copy.git("reset", "-q", "--hard", before)
        copy.git("clean", "-q", "-fd")
        copy.make_kit()
    copy.commit("--amend")
    check("after all, the check passes", copy.make("--check")[0] == 0)
    copy.git("checkout", "-q", "--orphan", "alone")
    copy.commit()
    check("a commit of another branch", "HEAD does not have the commit" in copy.make("--sources")[1])


def main():
    with tempfile.TemporaryDirectory() as name:
        copy = Copy(Path(name))
        of_writing(copy)
        of_refusals(copy)
    print(f"{check.count} checks of web/make, {check.failed} failed")
    return check.failed > 0


if __name__ == "__main__":
    sys.exit(main())
