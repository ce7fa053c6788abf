#!/usr/bin/env python3
"""Makes docs/CRATES.md from the `//!` heads of the crates' root files.

    tests/gate/crates.py            writes it (`make crates`)
    tests/gate/crates.py --check    prints how it differs from what would be made (status 1), and writes nothing

The crates stand in the order of crates.txt, each with the crates and libraries that it depends on.
"""

import difflib
import pathlib
import sys

TOP = pathlib.Path(__file__).resolve().parents[2]
MADE = TOP / "docs" / "CRATES.md"
HEAD = """# Crates

Made by `make crates` from the heads of the crates' root files; edit those. The crates stand in the order of
`crates.txt`, dependencies first. `docs/ARCHITECTURE.md` shows them as layers, and `docs/PROOF.md` what is proved of each.
"""


def crates():
    """Each crate of crates.txt, with what it depends on."""
    for line in (TOP / "crates.txt").read_text().splitlines():
        if line and not line.startswith("#"):
            name, _, needs = line.partition(":")
            yield name.split()[0], needs.split()


def head_of(crate):
    """The paragraphs of the comment at the head of a crate's root file."""
    source = TOP / "crates" / crate / "src"
    root = next(it for it in (source / "lib.rt", source / "main.rt") if it.is_file())
    lines = []
    for line in root.read_text().splitlines():
        if not line.startswith("//!"):
            break
        lines.append(line[3:].strip())
    return [" ".join(it.split()) for it in "\n".join(lines).split("\n\n") if it.strip()]


def made():
    """The text of the document."""
    parts = [HEAD]
    for crate, needs in crates():
        parts.append(f"\n## `{crate}`\n\n" + "\n\n".join(head_of(crate)) + "\n")
        if needs:
            parts.append(f"\nDepends on {', '.join(f'`{it}`' for it in needs)}.\n")
    return "".join(parts)


def main():
    text = made()
    if sys.argv[1:] != ["--check"]:
        MADE.write_text(text)
        return 0
    old = MADE.read_text() if MADE.is_file() else ""
    sys.stdout.writelines(difflib.unified_diff(old.splitlines(True), text.splitlines(True), "docs/CRATES.md", "made"))
    return 0 if old == text else 1


if __name__ == "__main__":
    sys.exit(main())
