#!/usr/bin/env python3
"""Says where docs/ARCHITECTURE.md is wrong of the calls from `main` to a run: each function that it names there in
a row must call the next one, and be counted. Prints a line for each that does not, and nothing where all is so.
"""

import pathlib
import re

TOP = pathlib.Path(__file__).resolve().parents[2]
NAMES = re.compile(r"`([a-z_]+)`")
LINES = re.compile(r"A session line passes through (\d+) functions from `main` to its run: (.*?)\. "
                   r"A one-shot command goes from (.*?): (\d+) functions\.")


def bodies():
    """The bodies of all functions, by their names."""
    found = {}
    for path in sorted(TOP.glob("crates/*/src/**/*.rt")):
        text = path.read_text(encoding="utf-8")
        for head in re.finditer(r"(?m)^ *(?:pub(?:\(crate\))? )?fn ([a-z_]+)", text):
            begin = text.find("\n{", head.end())
            inner = re.compile(r"(?m)^" + re.match(r" *", head.group()).group() + r"\}").search(text, head.end())
            if inner:
                begin = begin if 0 <= begin < inner.start() else head.end()
                found.setdefault(head.group(1), []).append(text[begin:inner.start()])
    return found


def main():
    said = LINES.search((TOP / "docs" / "ARCHITECTURE.md").read_text(encoding="utf-8"))
    if not said:
        print("the calls are not counted")
        return
    crates = {path.name for path in (TOP / "crates").iterdir()}
    line = [name for name in NAMES.findall(said[2]) if name not in crates]
    by = NAMES.findall(said[3])
    once = line[:line.index(by[0])] + by[:-1] + line[line.index(by[-1]):]
    calls = bodies()
    for count, path in ((said[1], line), (said[4], once)):
        if len(path) != int(count):
            print(f"{len(path)} functions, not {count}")
        for name, following in zip(path, path[1:]):
            if not any(re.search(rf"\b{following}\(", body) for body in calls.get(name, [])):
                print(f"{name} does not call {following}")


main()
