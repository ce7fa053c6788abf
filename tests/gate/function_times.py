#!/usr/bin/env python3
"""Proves one crate from nothing, and lists the functions that took longest, and the parts of a proof.

    tests/gate/function_times.py NAME [COUNT]

It stands over the libraries that `rt ci` has proved, and keeps nothing. The prover writes each module
as soon as it has checked it, so the time of a module is that since the one before it, by the clock: run
it on a machine with a processor to spare. The lines `checked` of `rt check --progress` can't be used
for that: a function's code is checked long before the line is printed that names it.
"""

import collections
import os
import pathlib
import re
import subprocess
import sys
import tempfile
import time

from mutants import KIT, TOP, Crates

# What stands behind a function's path in the name of a module: `Lts` is its code with the goals, `Proof` the answers
# that are searched for.
PART = re.compile(r"\.(Answers|AnswersOffered|Carried|Code|Given|Goals|Invariants|Kinds|Layout|Lts|Met|Mir|Named|Proof"
                  r"|Reads|Statement|Symbol|TheLink|Tie|View)(-[-\w]+)?$")


def prover(crates, name):
    """The prover's words for the crate as it stands."""
    root = "src/main.rt" if (TOP / "crates" / name / "src" / "main.rt").exists() else "src/lib.rt"
    words = [KIT / "bin" / "rattle", "check", "--crate-name", name, root, "--jobs", "1"]
    return words + crates.libs([name])


def modules(words, folder):
    """When the check began, and when each module was written, in that order; and how the check ended."""
    with tempfile.TemporaryDirectory() as room:
        begin, written = time.time(), {}
        out = pathlib.Path(room) / "out"
        with out.open("w") as said:
            check = subprocess.Popen(words, cwd=folder, stdin=subprocess.DEVNULL, stdout=said,
                                     stderr=subprocess.STDOUT, env={**os.environ, "TMPDIR": room})
            while check.poll() is None:
                for path in pathlib.Path(room).glob("rattle-*/*.oantt"):
                    try:
                        written[path.name.removesuffix(".oantt")] = path.lstat().st_mtime
                    except FileNotFoundError:
                        pass
                time.sleep(0.5)
        last = out.read_text().strip().splitlines()[-1:]
    return begin, sorted((when, module) for module, when in written.items() if when >= begin), last


def named():
    """The crate of the first word, and how many functions are asked for."""
    crates = Crates()
    name, count = [*sys.argv[1:], "20"][:2] if len(sys.argv) in (2, 3) else ("", "")
    if name not in crates.uses or not count.isdigit():
        sys.exit("function_times.py: name a crate of crates.txt, as in function_times.py NAME [COUNT]")
    for below in crates.below(name):
        if not crates.lib(below).is_dir():
            sys.exit(f"function_times.py: there is no proved library of {below}: run rt ci, or rt all check")
    return crates, name, int(count)


def main():
    crates, name, count = named()
    begin, rows, last = modules(prover(crates, name), TOP / "crates" / name)
    functions, parts = collections.Counter(), collections.Counter()
    for (before, _), (when, module) in zip([(begin, ""), *rows], rows):
        function, kind = module.removeprefix(f"Rattle-{name}-proofs."), "others"
        while part := PART.search(function):
            kind = part[1] if kind == "others" else kind
            function = function[: part.start()]
        functions["before the first" if before == begin else function] += when - before
        parts[kind] += when - before
    for what, counted in ("function", functions), ("part", parts):
        print(f"Seconds by {what}:")
        for it, seconds in counted.most_common(count):
            print(f"{seconds:7.1f} {it}")
    print(*last)


if __name__ == "__main__":
    main()
