#!/usr/bin/env python3
"""Names each of the twenty longest contracts whose written answers do not begin with a comment of one to five lines: what is
proved there, and why it is hard. A contract is as long as its `requires` and `ensures`. The status is 1 if there is one.
"""

import pathlib
import re
import sys

TOP = pathlib.Path(__file__).resolve().parents[2]
LONGEST = 20
MOST = 5
IMPL = re.compile(r"impl(?:<.*?>)? (?:(\w+)(?:<.*>)? for )?(\w+)")
FUNCTION = re.compile(r"( *)(?:pub(?:\([a-z]+\))? )?fn (\w+)")


def contracts(path):
    """Each function of a file by the folder of its answers, with the length of its contract."""
    owner, lines = "", path.read_text(encoding="utf-8").split("\n")
    for at, line in enumerate(lines):
        if made := IMPL.match(line):
            owner = made[2] + (made[1] or "")
        elif line == "}":
            owner = ""
        elif head := FUNCTION.match(line):
            end, length, is_contract = at, 0, False
            while end < len(lines) and lines[end] != head[1] + "{" and not lines[end].endswith(("{}", ";")):
                is_contract |= re.match(r"\s*(requires|ensures)\b", lines[end]) is not None
                length += is_contract and lines[end].strip() != "" and not lines[end].lstrip().startswith("//")
                end += 1
            yield length, "/".join(filter(None, (owner, head[2])))


def answers():
    """The files of written answers, each with the length of the contract, the longest first."""
    found = []
    for path in sorted((TOP / "crates").glob("*/src/**/*.rt")):
        crate, _, *parts = path.relative_to(TOP / "crates").with_suffix("").parts
        module = [part for part in parts if part not in ("lib", "main")]
        for length, name in contracts(path):
            file = TOP.joinpath("crates", crate, "proofs", *module, name, "Answers.antt")
            if file.exists():
                found.append((length, file))
    return sorted(found, key=lambda it: (-it[0], it[1]))


def main():
    found = 0
    for length, file in answers()[:LONGEST]:
        lines = file.read_text(encoding="utf-8").split("\n")
        head = next(number for number, line in enumerate(lines) if not line.startswith("-- "))
        if not 1 <= head <= MOST:
            print(f"{file.relative_to(TOP)}: the answers for a contract of {length} lines begin with {head} lines of comment")
            found += 1
    return 1 if found else 0


if __name__ == "__main__":
    sys.exit(main())
