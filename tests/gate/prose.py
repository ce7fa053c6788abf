#!/usr/bin/env python3
"""Checks how the documents read, and that generated ones are what their scripts make.

    tests/gate/prose.py [FILE..]    the documents of the repository without a FILE; with one, no generated ones

A paragraph has at most 600 characters (six lines of 100 columns), a sentence 40 words, and a table cell 200 characters.
Each line that is printed is one place that breaks a rule; the status is 1 then.
"""

import pathlib
import re
import subprocess
import sys

TOP = pathlib.Path(__file__).resolve().parents[2]
PARAGRAPH, SENTENCE, CELL = 600, 40, 200
# Their cells are items of man pages, which may be longer.
LISTS = {"docs/COMMANDS.md", "docs/FORMATS.md"}
GENERATED = {
    "docs/CRATES.md": ["tests/gate/crates.py", "--check"],
    "docs/FIGURES.md": ["tests/bench/figures.sh", "--check"],
}
ITEM = re.compile(r"^\s*([-*]|\d+\.) ")


def documents():
    """The files that people write, by their paths from the top."""
    found = [*TOP.glob("*.md"), *TOP.glob("docs/*.md"), *TOP.glob("contrib/**/*.md")]
    names = sorted(str(it.relative_to(TOP)) for it in found)
    return [it for it in names if it not in GENERATED and it != "docs/WORDS.md"]


def parts(text):
    """The paragraphs, list items and table rows of a text, each with its first line; code is left out."""
    code, kind, first, lines = False, "", 0, []
    for number, line in enumerate([*text.splitlines(), ""], 1):
        fence = line.startswith("```")
        row = line.startswith("|")
        new = code or fence or row or not line.strip() or line.startswith("#") or ITEM.match(line)
        if lines and new:
            yield kind, first, " ".join(lines)
            lines = []
        if fence:
            code = not code
        elif not code and line.strip() and not line.startswith("#"):
            if row:
                yield "row", number, line
            else:
                kind = "paragraph"
                first = first if lines else number
                lines.append(ITEM.sub("", line).strip())


def sentences(text):
    """The sentences of a paragraph, with each piece of code as one word."""
    return re.split(r"(?<=[.!?])\s+(?=[A-Z`*\d])", re.sub(r"`[^`]*`", "CODE", text))


def faults(name, text):
    """What breaks a rule in a document."""
    for kind, number, part in parts(text):
        if kind == "row":
            for cell in map(str.strip, re.split(r"(?<!\\)\|", part)[1:-1]):
                if len(cell) > CELL and name not in LISTS:
                    yield number, f"a cell of {len(cell)} characters: {cell[:60]}"
            continue
        if len(part) > PARAGRAPH:
            yield number, f"a paragraph of {len(part)} characters: {part[:60]}"
        for sentence in sentences(part):
            if len(sentence.split()) > SENTENCE:
                yield number, f"a sentence of {len(sentence.split())} words: {sentence[:60]}"


def main():
    failed = 0
    for name in sys.argv[1:] or documents():
        for number, what in faults(name, (TOP / name).read_text()):
            print(f"{name}:{number}: {what}")
            failed += 1
    for name, command in [] if sys.argv[1:] else GENERATED.items():
        if subprocess.run(command, cwd=TOP).returncode:
            print(f"{name} is not what {' '.join(command[:-1])} makes")
            failed += 1
    return 1 if failed else 0


if __name__ == "__main__":
    sys.exit(main())
