#!/usr/bin/env python3
"""Lists what the search for each goal of a function costs, of those that have no written answer.

    tests/gate/goal_times.py NAME FUNCTION [PATTERN]

NAME is a library of crates.txt, FUNCTION a path below it, as `line::Line::close`, and PATTERN a regular
expression for the goals that are asked for. It stands over the libraries that `rt ci` has proved, and
keeps nothing. In a copy of the crate the function stands once for each goal, with holes for answers of
the others, so the time of its proof less that of one with holes alone is what the search takes. That is
by the clock: run it on a machine with a processor to spare. Each goal costs the function's code once
more, so a large function takes minutes.
"""

import pathlib
import re
import subprocess
import sys
import tempfile

from mutants import KIT, TOP, Copy, Crates, Mutant
from function_times import modules, prover


def goals_of(crates, name, function, room):
    """The names of all goals of a function, and the `use` lines that answers begin with."""
    words = [*prover(crates, name), "--start", function, "--generated", room / "generated"]
    subprocess.run(words, cwd=TOP / "crates" / name, stdin=subprocess.DEVNULL, capture_output=True, check=False)
    path = room / "generated" / f"Rattle-{name}-proofs" / function.replace("::", "/") / "AnswersOffered.antt"
    if not path.exists():
        sys.exit(f"goal_times.py: {name} has no function {function} that the borrow checker covers")
    text = path.read_text()
    return re.findall(r"^pub (\S+) : goal\.", text, re.M), re.findall(r"^use .*$", text, re.M)


def copy_of(name, function, goals, uses, wanted, room):
    """A copy of the crate in which the function stands with holes alone, and once more for each goal that is wanted."""
    copy = Copy(name, f"{name}_copy_1", room / "copy")
    copy.make()
    proof = copy.folder / "proofs" / function.replace("::", "/")
    answers = proof / "Answers.antt"
    text = answers.read_text() if answers.exists() else "\n".join(uses).replace(f"Rattle.{name}.", f"Rattle.{copy.name}.")
    own = f"Rattle.{copy.name}.proofs."
    for goal in [None, *wanted]:
        path = copy.takes_beside(Mutant(name, "", function, None, [])) if goal else function
        if path is None:
            sys.exit(f"goal_times.py: {function} has a proof of its own, or stands in a cycle of calls")
        copy.mutants.append(Mutant(name, "", function, None, []))
        copy.functions.append(path)
        holes = "".join(f"\n\npub {it} : goal.{it}\n{it} = ?" for it in goals if it != goal)
        to = copy.folder / "proofs" / path.replace("::", "/") / "Answers.antt"
        to.parent.mkdir(parents=True, exist_ok=True)
        to.write_text((text + holes + "\n").replace(own + function.replace("::", "."), own + path.replace("::", ".")))
    copy.leave_out_others()
    return copy


def main():
    if len(sys.argv) not in (3, 4) or sys.argv[1] not in Crates().uses:
        sys.exit("goal_times.py: name a library and a function of it, as in goal_times.py NAME FUNCTION [PATTERN]")
    crates, (name, function, pattern) = Crates(), [*sys.argv[1:], ""][:3]
    with tempfile.TemporaryDirectory() as folder:
        room = pathlib.Path(folder)
        goals, uses = goals_of(crates, name, function, room)
        answers = TOP / "crates" / name / "proofs" / function.replace("::", "/") / "Answers.antt"
        written = answers.read_text() if answers.exists() else ""
        goals = [it for it in goals if not re.search(rf"^(pub )?{re.escape(it)} :", written, re.M)]
        wanted = [it for it in goals if re.search(pattern, it)]
        copy = copy_of(name, function, goals, uses, wanted, room)
        (room / "src").mkdir()
        (room / "src" / "lib.rt").write_text("//! Nothing: what is tried stands in its library.\n")
        words = [KIT / "bin" / "rattle", "check", "--crate-name", "nothing", "src/lib.rt", "--jobs", "1", "--allow-holes"]
        words += [f"--only={copy.name}::{it}" for it in copy.functions] + crates.words([copy])
        begin, rows, last = modules(words, room)
    times = {module: when - before for (before, _), (when, module) in zip([(begin, ""), *rows], rows)}
    spent = [times.get(f"Rattle-{copy.name}-proofs.{it.replace('::', '.')}.Proof") for it in copy.functions]
    if None in spent:
        sys.exit(f"goal_times.py: no proof was tried: {last}")
    for seconds, goal in sorted(zip((it - spent[0] for it in spent[1:]), wanted), reverse=True):
        print(f"{max(seconds, 0):8.1f} {goal}")


if __name__ == "__main__":
    main()
