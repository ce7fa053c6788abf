#!/usr/bin/env python3
"""Names each function whose comment begins with a question word, an article or `the same`. The comment of a function says
what it does, in the third person: Returns, Reads, Adds. A law states its theorem, so modules named `laws` are left out.
The status is 1 if there is one.
"""

import pathlib
import re
import sys

TOP = pathlib.Path(__file__).resolve().parents[2]
COMMENT = re.compile(r"\s*//[/!]?( |$)")
FUNCTION = re.compile(r"\s*(pub(\([a-z]+\))? )?(const )?fn (\w+)")
WRONG = re.compile(r"(What|Why|Where|Whether|How|Which|Who|When|The|An?|Its)\b")


def faults(lines):
    """The functions of a file, each with the line of its comment."""
    for end, line in enumerate(lines):
        named = FUNCTION.match(line)
        if not named:
            continue
        while end > 0 and lines[end - 1].lstrip().startswith("#["):
            end -= 1
        begin = end
        while begin > 0 and COMMENT.match(lines[begin - 1]):
            begin -= 1
        if begin < end and WRONG.match(lines[begin].lstrip(" /")):
            yield begin + 1, named[4]


def main():
    found = 0
    for path in sorted((TOP / "crates").glob("*/src/**/*.rt")):
        if path.stem.endswith("laws"):
            continue
        for number, name in faults(path.read_text(encoding="utf-8").split("\n")):
            print(f"{path.relative_to(TOP)}:{number}: the comment of {name} does not say what it does")
            found += 1
    return 1 if found else 0


if __name__ == "__main__":
    sys.exit(main())
