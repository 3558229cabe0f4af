#!/usr/bin/env python3
"""Writes texts of the Debian packages from files of the repository. ./release --deb calls it.

    texts.py changelog MAINTAINER SECONDS   CHANGELOG.md in the form of a Debian changelog (Debian policy 4.4). SECONDS
                                            since 1970 are the date of a version that is `unreleased`.
    texts.py copyright                      LICENSE as a machine-readable copyright file (DEP-5)
"""

import re
import sys
import textwrap
from collections.abc import Iterator
from datetime import datetime, timezone
from email.utils import format_datetime
from pathlib import Path

TOP = Path(__file__).resolve().parent.parent
WIDTH = 78
PORTED = "\n\nPorted from the Rust crate rpki 0.20.1, whose licence is:\n\n"


def wrapped(text: str, first: str, more: str) -> str:
    """Returns a paragraph in lines."""
    return textwrap.fill(
        text, WIDTH, initial_indent=first, subsequent_indent=more, break_long_words=False, break_on_hyphens=False
    )


def plain(text: str) -> str:
    """Returns a paragraph of Markdown without links and marks."""
    text = re.sub(r"\[([^]]*)\]\([^)]*\)", r"\1", " ".join(text.split()))
    return re.sub(r"[*`]", "", text)


def items(section: str) -> Iterator[str]:
    """Returns the paragraphs of a Debian changelog for a section. A heading is before its first item."""
    title, is_new = "", False
    for block in re.split(r"\n\s*\n|\n(?=- )", section):
        text = block.strip()
        if heading := re.fullmatch(r"(#{3,4}) (.*)", text):
            title = heading[2] if heading[1] == "###" else f"{title.partition(':')[0]}: {heading[2]}"
            is_new = True
        elif text:
            if is_new:
                yield f"\n  [ {plain(title)} ]"
                is_new = False
            yield wrapped(plain(text.removeprefix("- ")), "  * ", "    ")


def date_of(day: str, seconds: int) -> str:
    """Returns the date of a version in the form of RFC 5322."""
    if day == "unreleased":
        return format_datetime(datetime.fromtimestamp(seconds, timezone.utc))
    return format_datetime(datetime.fromisoformat(day).replace(tzinfo=timezone.utc))


def changelog(maintainer: str, seconds: int) -> str:
    """Returns the Debian changelog."""
    parts = re.split(r"^## ([^,\n]+), ([^,\n]+)\n", (TOP / "CHANGELOG.md").read_text(), flags=re.MULTILINE)[1:]
    if not parts:
        raise SystemExit("texts.py: CHANGELOG.md has no heading '## VERSION, DAY'")
    entries = []
    for version, day, section in zip(parts[::3], parts[1::3], parts[2::3], strict=True):
        lines = "\n".join(items(section)).strip("\n")
        head = f"pigyelund ({version}) unstable; urgency=medium"
        entries.append(f"{head}\n\n{lines}\n\n -- {maintainer}  {date_of(day, seconds)}\n")
    return "\n".join(entries)


def license_of(name: str, text: str) -> str:
    """Returns the paragraph of a licence."""
    lines = [f" {line}" if line else " ." for line in text.strip().split("\n")]
    return f"License: {name}\n" + "\n".join(lines) + "\n"


def copyright_file() -> str:
    """Returns the copyright file."""
    own, found, ported = (TOP / "LICENSE").read_text().partition(PORTED)
    holders = [re.search(r"^Copyright \(c\) (.*?)\.?$", it, re.MULTILINE) for it in (own, ported)]
    if not found or not all(holders):
        raise SystemExit("texts.py: LICENSE doesn't have the two licences and their holders")
    # The terms follow the notice, in the next paragraph.
    terms = [it[holder.end() :].partition("\n\n")[2] for it, holder in zip((own, ported), holders, strict=True)]
    return (
        "Format: https://www.debian.org/doc/packaging-manuals/copyright-format/1.0/\n"
        "Upstream-Name: pigyelund\n"
        "Comment: Ported from the Rust crate rpki 0.20.1, which has the second license.\n"
        "\n"
        "Files: *\n"
        f"Copyright: {holders[0][1]}\n           {holders[1][1]}\n"
        "License: BSD-3-Clause and BSD-3-Clause-NLnet-Labs\n"
        "\n"
    ) + "\n".join((license_of("BSD-3-Clause", terms[0]), license_of("BSD-3-Clause-NLnet-Labs", terms[1])))


def main(words: list[str]) -> int:
    """Writes the text that is asked for."""
    if len(words) == 3 and words[0] == "changelog" and words[2].isdigit():
        sys.stdout.write(changelog(words[1], int(words[2])))
    elif words == ["copyright"]:
        sys.stdout.write(copyright_file())
    else:
        print("usage: texts.py changelog MAINTAINER SECONDS | copyright", file=sys.stderr)
        return 2
    return 0


if __name__ == "__main__":
    sys.exit(main(sys.argv[1:]))
