#!/usr/bin/env python3
"""Tries the mutants crates/NAME/mutants/*.edit, each of which the prover must refuse.

    tests/gate/mutants.py [NAME..]
    tests/gate/mutants.py --right [NAME..]

A NAME is a crate, or one module of it, as rc_dbtext::lexer; without any, all crates are meant.
With --right the bodies are tried as they are, in the same way, and none may be refused: so it is seen that
a goal which a mutant names is proved where nothing is wrong. A mutant for which it is not names no goal.

It stands over the libraries that `rt ci` has just proved; those that `rt lib` keeps do too. A mutant
makes a body wrong. Its lines are 'refuses: FUNCTION', the function whose proof must fail, by its path
below the crate; 'goal: NAME', the goal of it that is left open, as the run tells it; 'file: src/..'; and
pairs 'old: TEXT' and 'new: TEXT', of which each old text stands in the file once.

Many are tried in one run of the prover, in copies of their crates with names of their own. A run proves
the named functions alone: in the copies all others have a hole for a proof, so that they stand for their
contracts, and no body, and lemmas that nothing left cites are taken out. A further mutant of one function
stands beside the first in a function of its own, with the same contract and the same proof files, or, where
it changes more than that, in a further copy.
Of a mutated function the goal that the mutant names is tried, and no other that has no written answer: by
what the prover would try of itself, each under a name of its own. So a mutant costs one goal, and not all
that its function has.
Where a mutant names no goal, or its function says in an attribute how its goals are tried, all are.
A mutant is refused where a goal of its function's own is open, the named one or one with a written
answer. One that is not, as where the named goal is proved or there is none of that name, is tried once
more by itself, with each proof as it is. A copy that cannot be read is named, with the error, and the
others go on without it.

The last line is 'N passed, M failed'.
"""

import itertools
import os
import pathlib
import re
import shutil
import subprocess
import sys
import tempfile
from concurrent.futures import ThreadPoolExecutor
from dataclasses import dataclass, field, replace

TOP = pathlib.Path(__file__).resolve().parents[2]
KIT = pathlib.Path(subprocess.check_output(["rt", "doc"], text=True).strip()).parent
# So many mutants are tried in one run, which takes up to 5 GB: a run reads all libraries first, so few are cheaper.
MUTANTS = 130
RUN_BYTES = 5_000_000_000
# The second of the two ways in which a goal without a written answer is tried.
BY_GRIND = "by_grind"
# Errors that only miss a name that the mutant took away show nothing of a contract.
MISSING = re.compile(
    r"defines no `|has no `|has no field|is not in scope|was not admitted|was rejected"
)


@dataclass
class Mutant:
    """What is written in one file: the function that must be refused, and the texts to replace."""

    crate: str
    name: str
    function: str
    goal: str | None
    changes: list[tuple[str, str, str]]

    def apply(self, folder):
        """The texts of the files that it changes, as they are then; a ValueError where one does not apply."""
        texts = {}
        for file, old, new in self.changes:
            text = texts[file] if file in texts else (folder / file).read_text()
            if text.count(old) != 1:
                raise ValueError(f"an old text stands in {file} {text.count(old)} times")
            texts[file] = text.replace(old, new)
        return texts

    def is_of_constant(self):
        """Whether it changes a constant, which other functions read too."""
        return any(re.match(r"(pub(\([a-z]+\))? )?(const|static) ", old) for _, old, _ in self.changes)


def read_mutant(path):
    """The mutant in a file; a ValueError that says why it is none."""
    if path.suffix != ".edit":
        raise ValueError("its name does not end in .edit")
    functions, goals, file, old, changes = [], [], None, None, []
    for line in path.read_text().splitlines():
        word, _, text = line.partition(":")
        text = text.removeprefix(" ")
        if word == "refuses" and text:
            functions.append(text)
        elif word == "goal" and text:
            goals.append(text)
        elif word == "file" and text.startswith("src/"):
            file = text
        elif word == "old" and text and file and old is None:
            old = text
        elif word == "new" and old is not None:
            changes.append((file, old, text))
            old = None
        else:
            raise ValueError(f"this is no line of a mutant: {line}")
    if len(functions) != 1:
        raise ValueError("it has not one line that says what is refused")
    if len(goals) > 1:
        raise ValueError("it has more than one line that says which goal is left open")
    if not changes or old is not None:
        raise ValueError("it has no whole pair of an old and a new text")
    return Mutant(path.parent.parent.name, path.stem, functions[0], goals[0] if goals else None, changes)


@dataclass
class Copy:
    """A copy of a crate's texts under a name of its own, with mutants, and the function of the copy that each is to fail."""

    crate: str
    name: str
    folder: pathlib.Path
    mutants: list[Mutant] = field(default_factory=list)
    functions: list[str] = field(default_factory=list)
    # Of a function of which one goal alone is tried: the answers by which it is, none where one is written.
    attempts: dict[str, list[str]] = field(default_factory=dict)

    def make(self):
        """Copies the texts, in which the crate names itself."""
        own = re.compile(rf"\bRattle\.{self.crate}\b")
        for part in ("src", "specs", "proofs"):
            for file in sorted((TOP / "crates" / self.crate / part).rglob("*")):
                if file.is_file():
                    to = self.folder / file.relative_to(TOP / "crates" / self.crate)
                    to.parent.mkdir(parents=True, exist_ok=True)
                    to.write_text(own.sub(f"Rattle.{self.name}", file.read_text()))

    def takes(self, mutant):
        """Puts the mutant in, where it still applies: a further one of a function in a function of its own beside that."""
        if self.mutants and any(it.is_of_constant() for it in [*self.mutants, mutant]):
            return False
        function = mutant.function
        if any(it.function == function for it in self.mutants):
            function = self.takes_beside(mutant)
        else:
            try:
                texts = mutant.apply(self.folder)
            except ValueError:
                return False
            for file, text in texts.items():
                (self.folder / file).write_text(text)
        if function is None:
            return False
        self.mutants.append(mutant)
        self.functions.append(function)
        return True

    def takes_beside(self, mutant):
        """Puts the mutant into a function of another name, with the same contract and the same proof files; gives its path."""
        plain = self.found(mutant.function, TOP / "crates" / self.crate)
        mutated = self.found(mutant.function, self.folder)
        proof = self.folder / "proofs" / mutant.function.replace("::", "/")
        if plain is None or mutated is None or (proof / "Proof.antt").exists():
            return None
        text = "\n".join(plain.file.read_text().splitlines()[plain.begin : plain.end])
        for file, old, new in mutant.changes:
            if file != f"src/{mutated.file.relative_to(self.folder / 'src')}" or text.count(old) != 1:
                return None
            text = text.replace(old, new)
        path = f"{mutant.function}_{1 + sum(it.function == mutant.function for it in self.mutants)}"
        old, new = mutant.function.split("::")[-1], path.split("::")[-1]
        text = re.sub(rf"\bfn {old}\b", f"fn {new}", text, count=1)
        text = re.sub(rf"\bRattle\.{self.crate}\b", f"Rattle.{self.name}", text)
        lines = mutated.file.read_text().splitlines()
        lines[mutated.end : mutated.end] = ["", *text.splitlines()]
        mutated.file.write_text("\n".join(lines) + "\n")
        own = f"Rattle.{self.name}.proofs.{mutant.function.replace('::', '.')}."
        for file in proof.glob("*.antt"):
            to = self.folder / "proofs" / path.replace("::", "/") / file.name
            to.parent.mkdir(exist_ok=True)
            to.write_text(file.read_text().replace(own, f"Rattle.{self.name}.proofs.{path.replace('::', '.')}."))
        return path

    def found(self, path, folder):
        """A function of the copy, or of the crate, from its comment and attributes on."""
        for it in functions_in(folder):
            if it.path == path:
                lines = it.file.read_text().splitlines()
                while lines[it.begin - 1].strip() and not lines[it.begin - 1].endswith("{"):
                    it.begin -= 1
                return it
        return None

    def leave_out_others(self):
        """Gives each function but the mutated ones a hole for a proof, and no body: so it calls no others, and costs little."""
        for it in reversed([*functions_in(self.folder)]):
            if it.path in self.functions:
                continue
            lines = it.file.read_text().splitlines()
            margin = re.match(" *", lines[it.begin])[0]
            opens = [at for at in range(it.begin, it.end) if re.fullmatch(margin + r"(\S.*)?\{", lines[at])]
            # The value of a constant may come from a `const fn`.
            if opens and not re.search(r"\bconst fn\b", lines[it.begin]):
                lines[opens[0] + 1 : it.end - 1] = [f"{margin}    unreachable!()"]
                it.file.write_text("\n".join(lines) + "\n")
            proof = self.folder / "proofs" / it.path.replace("::", "/")
            for file in ("Invariants.antt", "Answers.antt"):
                (proof / file).unlink(missing_ok=True)
            proof.mkdir(parents=True, exist_ok=True)
            module, function = it.path.replace("::", "."), it.path.split("::")[-1]
            (proof / "Proof.antt").write_text(
                f"use Rattle.{self.name}.proofs.{module}.Statement.{{statement}}\n\n"
                f"pub {function}_spec : {{M : Type 1}} → statement M\n{function}_spec = ?\n"
            )

    def leave_out_lemmas(self):
        """Takes out the modules of lemmas that nothing left cites: the prover would check them once more for each copy."""
        folder = self.folder / "proofs"
        library = folder / "Lib.antt"
        modules = {it.stem: it for it in folder.glob("*.antt") if it != library}
        cites = re.compile(rf"\bRattle\.{self.name}\.proofs\.(\w+)|\bproofs::(\w+)::")
        left = [it for it in self.folder.rglob("*.*") if it.is_file() and it.parent != folder]
        cited = set()
        while left:
            found = {one or other for one, other in cites.findall(left.pop().read_text())}
            left += [modules[it] for it in (found & modules.keys()) - cited]
            cited |= found
        for name in modules.keys() - cited:
            modules[name].unlink()
            library.write_text(re.sub(rf"^(pub )?mod {name}$", "", library.read_text(), flags=re.M))

    def leave_out_goals(self):
        """Has the goal that a mutant names tried, and those with a written answer, and no other of its function."""
        for mutant, function in zip(self.mutants, self.functions):
            it = mutant.goal and self.found(function, self.folder)
            lines = it.file.read_text().splitlines() if it else []
            # What a function asks for by an attribute of its own, an attempt would lack.
            if not it or any("#[tactic(" in line for line in lines[it.begin : it.end]):
                continue
            lines[it.begin : it.begin] = [re.match(" *", lines[it.begin])[0] + "#[tactic(none)]"]
            it.file.write_text("\n".join(lines) + "\n")
            path = function.replace("::", "/")
            answers = self.folder / "proofs" / path / "Answers.antt"
            text = answers.read_text() if answers.exists() else ""
            self.attempts[function] = []
            if not re.search(rf"^pub {re.escape(mutant.goal)} :", text, re.M):
                answers.parent.mkdir(parents=True, exist_ok=True)
                answers.write_text(self.attempts_at(mutant.goal, function, text))
                self.attempts[function] = [mutant.goal, BY_GRIND]

    def attempts_at(self, goal, function, text):
        """Written answers, and behind them what the prover tries of itself of a goal without one."""
        own = f"Rattle.{self.name}.proofs.{function.replace('::', '.')}"
        uses = ["use Rattle.std.proofs.Common.{rules as auto_rules, arith as auto_arith}",
                "use Rattle.std.proofs.lemmas.Grind.{common_steps as auto_steps}"]
        if not text:
            uses.append(f"use {own}.Goals as goal")
        tried = [f"pub {goal} : goal.{goal}", f"{goal} = search auto_rules", "",
                 f"{BY_GRIND} : goal.{goal}", f"{BY_GRIND} = grind (auto_arith, auto_steps)"]
        return "\n".join([*uses, text, *tried, ""])


@dataclass
class Function:
    """A function or inherent method of a crate that is in no cycle of calls: its path, and the lines that it takes in its file."""

    path: str
    file: pathlib.Path
    begin: int
    end: int


def functions_in(folder):
    """The functions and inherent methods of a crate that are in no cycle of calls."""
    files, homes = {}, {}
    for file in sorted((folder / "src").rglob("*.rt")):
        at = file.relative_to(folder / "src").with_suffix("").parts
        files[file] = "::".join(it for it in at if it not in ("lib", "main", "mod")), file.read_text().splitlines()
    for at, lines in files.values():
        for line in lines:
            if found := re.match(r"(?:pub(?:\([a-z]+\))? )?(?:struct|enum) (\w+)", line):
                homes.setdefault(found[1], []).append(at)
    for file, (at, lines) in files.items():
        inside, skipped = None, False
        for begin, line in enumerate(lines):
            if re.match(r"#\[(cycle|test|cfg\(test\))", line.strip()):
                skipped = True
            elif found := re.fullmatch(r"impl(?:<[^>]*>)? (\w+)(?:<[^>]*>)? \{", line):
                inside = path_of(homes.get(found[1], []), at, found[1])
            elif line.startswith("}"):
                inside = None
            elif found := re.match(r"(    )?(?:pub(?:\([a-z]+\))? )?(?:const )?fn (\w+)", line):
                margin, name = found[1] or "", found[2]
                home = inside if margin else at
                end = next((it for it in range(begin, len(lines)) if lines[it] in (margin + "}", margin + "{}")), begin)
                if not skipped and home is not None and not calls_itself(lines[begin + 1 : end], margin, name):
                    yield Function(f"{home}::{name}" if home else name, file, begin, end + 1)
                skipped = False


def path_of(homes, at, name):
    """The path of a type that a module names, where its methods stand: of its own, or else of the only one of that name."""
    home = at if at in homes else homes[0] if len(homes) == 1 else None
    return None if home is None else f"{home}::{name}" if home else name


def calls_itself(lines, margin, name):
    """Whether the function with these lines may call itself: its proof then has another name."""
    at = r"\b(self\.|Self::)" if margin else r"(?<![.:\w])(self::)?"
    return re.search(rf"{at}{name}(::<[^>]*>)?\(", "\n".join(lines)) is not None


class Crates:
    """What each crate of the repository names, as crates.txt has it."""

    def __init__(self):
        self.uses = {}
        for line in (TOP / "crates.txt").read_text().splitlines():
            head, colon, names = line.partition("#")[0].partition(":")
            if colon:
                self.uses[head.split()[0]] = names.split()

    def below(self, crate):
        """The crates of the repository that it stands on."""
        found = []
        for name in self.uses[crate]:
            if name in self.uses:
                found += [it for it in [*self.below(name), name] if it not in found]
        return found

    def lib(self, crate):
        """The library that it was proved to, or that of the kit."""
        if crate in self.uses:
            return TOP / "crates" / crate / "out" / "rlib" / f"{crate}.rlib"
        return KIT / "rlibs" / f"{crate}.rlib"

    def words(self, copies):
        """The prover's words for the copies, and for the libraries that they stand on."""
        words = []
        for copy in copies:
            used = ",".join([*self.uses[copy.crate], "std"])
            words += ["--lib", f"{copy.name}:{used}={copy.folder / 'src' / 'lib.rt'}"]
        return words + self.libs({copy.crate for copy in copies})

    def libs(self, names):
        """The prover's words for the libraries that these crates stand on, and for its logic."""
        words = []
        for used in sorted({"std", *(it for name in names for it in self.uses[name])}):
            words += ["--extern", f"{used}={self.lib(used)}"]
        below = {it for name in names for it in self.below(name)}
        for folder in [*(self.lib(it).parent for it in sorted(below)), KIT / "rlibs"]:
            words += ["-L", f"dependency={folder}"]
        words += ["--antt-project", KIT / "rattle" / "logic" / "antt-project.json"]
        return words + ["--logic-built", KIT / "logic_built"]


def check(crates, copies, room, has_holes):
    """What the prover says of the mutated functions of these copies."""
    root = room / "root"
    (root / "src").mkdir(parents=True, exist_ok=True)
    (root / "src" / "lib.rt").write_text("//! Nothing: what is tried stands in its libraries.\n")
    words = [KIT / "bin" / "rattle", "check", "--crate-name", "nothing", "src/lib.rt", "--jobs", "1"]
    words += [f"--only={copy.name}::{function}" for copy in copies for function in copy.functions]
    words += crates.words(copies) + ["--allow-holes"] * has_holes
    done = subprocess.run(words, cwd=root, stdin=subprocess.DEVNULL, capture_output=True, text=True)
    return done.stdout + done.stderr


def verdict_of(copy, function, said):
    """What a run says of a function; None where it came to no proof of it."""
    head = f"fn {copy.name}::{function}: "
    return next((it.removeprefix(head) for it in said.splitlines() if it.startswith(head)), None)


def errors_in(said):
    """The lines of a run that say why it came to no proof."""
    lines = [it for it in said.splitlines() if re.match(r"rattle|antt|error|\S+: error", it)]
    return lines or ["it ended with nothing said"]


def open_goal(copy, function, said, goal):
    """An open goal of the function's own, or why there is none, and whether there is one: the named one, or the first."""
    verdict = verdict_of(copy, function, said)
    if verdict is None:
        return False, f"no proof was tried: {errors_in(said)[0]}"
    if verdict.startswith("no proof: expected answers in") and function not in copy.attempts:
        return True, verdict.partition("; ")[2]
    if verdict.startswith("not proved"):
        attempts = copy.attempts.get(function, [])
        lines = own_errors(copy, function, said)
        failed = [it for it in attempts if any(f"error: `{it}`" in line for line in lines)]
        for line in sorted(lines, key=lambda it: f"error: `{goal}`" not in it):
            if attempts and failed == attempts or not any(f"error: `{it}`" in line for it in attempts):
                return True, line
    return False, f"no goal of {function}'s own is open: it is {verdict}"


def own_errors(copy, function, said):
    """The errors at answers of the function's own, but those that only miss a name."""
    # What is missing may stand on the next line, where that of the error is long.
    said = re.sub(rf"\n +(?={MISSING.pattern})", " ", said)
    own = re.escape(f"{copy.folder}/proofs/{function.replace('::', '/')}/")
    lines = [it for it in said.splitlines() if re.match(own + r"[A-Za-z]*\.antt:[0-9:]*: error", it)]
    return [it.removeprefix(f"{copy.folder}/") for it in lines if not MISSING.search(it)]


class Trial:
    """The mutants of some crates, and how each was answered; with the right bodies, none may be refused."""

    def __init__(self, names, room, is_right):
        self.crates = Crates()
        self.room = room
        self.is_right = is_right
        self.passed = self.failed = 0
        self.copies = []
        self.numbers = itertools.count()
        for name in names:
            crate, _, module = name.partition("::")
            missing = [it for it in self.crates.below(crate) if not self.crates.lib(it).is_dir()]
            for path in sorted((TOP / "crates" / crate / "mutants").iterdir()):
                if missing:
                    self.fail(crate, path.stem, f"there is no proved library of {missing[0]}: run rt ci, or rt all check")
                    continue
                try:
                    mutant = read_mutant(path)
                    if module and not mutant.function.startswith(f"{module}::"):
                        continue
                    mutant.apply(TOP / "crates" / crate)
                    self.place(replace(mutant, changes=[]) if is_right else mutant)
                except ValueError as why:
                    self.fail(crate, path.stem, why)

    def new_copy(self, crate):
        number = 1 + sum(it.crate == crate for it in self.copies)
        name = f"{crate}_copy_{number}"
        copy = Copy(crate, name, self.room / name)
        copy.make()
        return copy

    def place(self, mutant):
        """Puts the mutant into the first copy of its crate that takes it, or into a new one."""
        if any(it.crate == mutant.crate and it.takes(mutant) for it in self.copies):
            return
        copy = self.new_copy(mutant.crate)
        if not copy.takes(mutant):
            raise ValueError("it does not apply where the crate names itself")
        self.copies.append(copy)

    def tell(self, text):
        print(" ".join(str(text).split()[:50]), flush=True)

    def fail(self, crate, name, why):
        print(f"{crate}/{name}: FAILED: {' '.join(str(why).split()[:25])}", flush=True)
        self.failed += 1

    def refused(self, mutant, goal):
        goal = " ".join(goal.split()[:25])
        if self.is_right:
            self.fail(mutant.crate, mutant.name, f"{mutant.function} is refused as it is: {goal}")
            return
        print(f"{mutant.crate}/{mutant.name}: refused, as it must be: {mutant.function}: {goal}", flush=True)
        self.passed += 1

    def try_together(self, copies):
        """One run with these copies; gives the mutants that were not refused."""
        number = next(self.numbers)
        said = check(self.crates, copies, self.room / f"run_{number}", True)
        left = []
        for copy in copies:
            for mutant, function in zip(copy.mutants, copy.functions):
                is_open, what = open_goal(copy, function, said, mutant.goal)
                if is_open:
                    self.refused(mutant, what)
                elif verdict_of(copy, function, said) is not None or len(copies) == 1:
                    if not self.is_right:
                        self.tell(f"{mutant.crate}/{mutant.name}: is tried once more alone: {what}")
                    elif verdict_of(copy, function, said) is None:
                        self.fail(mutant.crate, mutant.name, what)
                        continue
                    left.append(mutant)
        silent = [it for it in copies if all(verdict_of(it, function, said) is None for function in it.functions)]
        if not silent or len(copies) == 1:
            return left
        # One copy that cannot be read costs the others their verdicts: they go on without it.
        errors = errors_in(said)
        blamed = [it for it in silent if any(it.name in line for line in errors)]
        why = next((line for line in errors if any(it.name in line for it in blamed)), errors[0])
        self.tell(f"no proof was tried in {', '.join(it.name for it in blamed or silent)}: {why}")
        parts = [[it] for it in blamed] + [[it for it in silent if it not in blamed]]
        if not blamed:
            parts = [silent[::2], silent[1::2]]
        for part in parts:
            left += self.try_together(part) if part else []
        return left

    def try_alone(self, mutant, number):
        """The mutant by itself, with each proof as it is."""
        name = f"{mutant.crate}_alone_{number}"
        copy = Copy(mutant.crate, name, self.room / name)
        copy.make()
        copy.takes(mutant)
        said = check(self.crates, [copy], self.room / f"alone_{number}", False)
        is_open, what = open_goal(copy, mutant.function, said, mutant.goal)
        if is_open:
            self.refused(mutant, what)
        else:
            self.fail(mutant.crate, mutant.name, what)

    def batches(self, lanes):
        """The copies by runs: as few as may be, but as many for each lane, each with crates that stand on much the same."""
        order = [*self.crates.uses]
        copies = sorted(self.copies, key=lambda it: order.index(it.crate))
        total = sum(len(it.mutants) for it in copies)
        count = min(len(copies), -(-total // (MUTANTS * lanes)) * lanes)
        batches, done = [[] for _ in range(count)], 0
        for copy in copies:
            batches[done * count // total].append(copy)
            done += len(copy.mutants)
        return [it for it in reversed(batches) if it]

    def run(self, lanes):
        for copy in self.copies:
            copy.leave_out_others()
            copy.leave_out_goals()
            copy.leave_out_lemmas()
        with ThreadPoolExecutor(lanes) as pool:
            left = [mutant for some in pool.map(self.try_together, self.batches(lanes)) for mutant in some]
            if self.is_right:
                self.passed += len(left)
            else:
                list(pool.map(self.try_alone, left, range(len(left))))


def lanes():
    """How many runs go side by side: one a processor, as far as memory allows."""
    if "JOBS" in os.environ:
        return int(os.environ["JOBS"])
    meminfo = pathlib.Path("/proc/meminfo").read_text()
    room = int(re.search(r"^MemAvailable: +(\d+) kB$", meminfo, re.M)[1]) * 1024
    return max(1, min(len(os.sched_getaffinity(0)), room // RUN_BYTES))


def main():
    is_right = sys.argv[1:2] == ["--right"]
    names = sys.argv[1 + is_right :] or sorted(it.name for it in (TOP / "crates").iterdir())
    names = [it for it in names if (TOP / "crates" / it.partition("::")[0] / "mutants").is_dir()]
    room = pathlib.Path(tempfile.mkdtemp())
    try:
        trial = Trial(names, room, is_right)
        trial.run(lanes())
    finally:
        shutil.rmtree(room)
    if trial.passed + trial.failed == 0:
        print("FAILED: there is no mutant to try")
        trial.failed = 1
    print(f"{trial.passed} passed, {trial.failed} failed")
    return 1 if trial.failed else 0


if __name__ == "__main__":
    sys.exit(main())
