#!/usr/bin/env python3
"""Says where docs/COMMAND.md is wrong of the contracts: in its first table, each call must be a public function of the
crate that its cell names, and have each clause of the next cell. Prints a line for each that is not so.
"""

import pathlib
import re
import sys

TOP = pathlib.Path(__file__).resolve().parents[2]
NAMES = re.compile(r"`([A-Za-z_:]+)`")
UNNAMED = "(one, without a name)"


def contracts(crate, name):
    """The names of the clauses of each public function of this name, with "" for one without a name."""
    for path in sorted((TOP / "crates" / crate / "src").glob("**/*.rt")):
        text = path.read_text(encoding="utf-8")
        for head in re.finditer(rf"(?m)^( *)pub fn {name}\b", text):
            # A body begins with a brace on a line of its own, or is empty.
            end = re.compile(rf"(?m)^{head[1]}\{{").search(text, head.end())
            contract = text[head.end():end.start() if end else len(text)]
            yield set(re.findall(r"\bensures(?: \*)?(?: (\w+))? \{", contract))


def faults(rows):
    """What is wrong in the rows."""
    for calls, clauses in rows:
        words = NAMES.findall(calls)
        crate = words[0].split("::")[0]
        names = [word.split("::")[-1] for word in words if word.split("::")[-1] != crate]
        wanted = {""} if clauses == UNNAMED else set(NAMES.findall(clauses))
        has = set()
        for name in names:
            found = list(contracts(crate, name))
            if not found:
                yield f"{crate} has no public function {name}"
            has |= set().union(*found)
        for clause in sorted(wanted - has):
            yield f"{', '.join(names)} of {crate}: no clause {clause or 'without a name'}"


def main():
    text = (TOP / "docs" / "COMMAND.md").read_text(encoding="utf-8")
    rows = re.findall(r"(?m)^\| \d+ \| (.*?) \| (.*?) \|", text)
    found = list(faults(rows)) if rows else ["the table of docs/COMMAND.md has no rows"]
    for fault in found:
        print(fault)
    return 1 if found else 0


if __name__ == "__main__":
    sys.exit(main())
