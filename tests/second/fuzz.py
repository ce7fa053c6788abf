"""Draws cases, and compares the built program with the plain one: fuzz.py PROGRAM SECONDS SEED.

With the word `histories` a case is commands in a row on one file, which are compared after each. The last line is
'N passed, M failed'. A case that differs is made smaller, and printed with its seed; fuzz.py PROGRAM 0 SEED runs the one
case of that seed. Fewer than LEAST commands a second are a failure.
"""

import os
import random
import select
import shutil
import signal
import sys
import tempfile
import time

import program
from draw import Drawer
from draw_histories import HistoryDrawer
from shrink import shrunk

# The defaults of whoever runs the tests are none of theirs.
for default in ("UNDORC_DB", "UNDORC_LIVE", "UNDORC_RUNNER", "UNDORC_CONTROLLER", "UNDORC_OUTPUT"):
    os.environ.pop(default, None)

PATIENCE = 60000
# Two slow processors that are busy manage fifteen times as many.
LEAST = 5


def write(path, text):
    with open(path, "wb") as file:
        file.write(text)


def read(path):
    try:
        with open(path, "rb") as file:
            return file.read()
    except FileNotFoundError:
        return None


def plant(path, tree):
    os.mkdir(path)
    for name, there in tree.items():
        inner = os.path.join(path, name)
        if isinstance(there, dict):
            plant(inner, there)
        else:
            write(inner, there)

# How a report of a transition begins where nothing is started.
REPORT = b"undorc:    0.000 s  "
# What an update that is only shown says of each service that moves.
MOVES = b" moves: "
# How what an undo or a redo that is only shown says of each entry begins.
ENTRIES = (b"undorc: takes back ", b"undorc: makes again ")


class Bench:
    """A folder in which the built program is run."""

    def __init__(self, built):
        self.built = os.path.realpath(built)
        self.room = tempfile.mkdtemp(dir="/dev/shm" if os.path.isdir("/dev/shm") else None)
        os.chdir(self.room)

    def close(self):
        shutil.rmtree(self.room)

    def prepare(self, case):
        for left in os.listdir(b"."):
            if os.path.isdir(left):
                shutil.rmtree(left)
            else:
                os.unlink(left)
        for place, tree in enumerate(case.trees):
            plant(b"tree%d" % place, tree)
        if case.base is not None and not case.in_front:
            write(b"base", case.base)
        if case.other is not None:
            write(b"other", case.other)
        if case.renames is not None:
            write(b"renames", case.renames)
        if case.kept is not None:
            write(b"kept", case.kept)
        write(b"in", case.input)

    def run(self, case):
        """The status, what is written, what is reported of transitions and of why services move, the first line of what
        else is told, the file of -l, what is left."""
        self.prepare(case)
        actions = [(os.POSIX_SPAWN_OPEN, 0, "in", os.O_RDONLY, 0)]
        for stream, name in ((1, "out"), (2, "err")):
            actions.append((os.POSIX_SPAWN_OPEN, stream, name, os.O_WRONLY | os.O_CREAT, 0o600))
        words = [b"undorc"] + case.arguments()
        child = os.posix_spawn(self.built, words, os.environ, file_actions=actions)
        watch = os.pidfd_open(child)
        ready = select.poll()
        ready.register(watch, select.POLLIN)
        if not ready.poll(PATIENCE):
            os.kill(child, signal.SIGKILL)
        os.close(watch)
        status = os.waitstatus_to_exitcode(os.waitpid(child, 0)[1])
        *lines, rest = read("err").split(b"\n")
        told = [line + b"\n" for line in lines] + [rest]
        is_report = lambda line: line.startswith((REPORT,) + ENTRIES) or MOVES in line
        # The entries stand in their order, as one report.
        entries = b"".join(line for line in told if line.startswith(ENTRIES))
        reports = [line for line in told if is_report(line) and not line.startswith(ENTRIES)]
        reports += [entries] if entries else []
        fault = next((line for line in told if not line.startswith(b"  ") and not is_report(line)), b"")
        return status, read("out"), sorted(reports), fault, read("kept"), sorted(os.listdir(b"."))


def is_circle(fault, word, steps):
    """Whether a circle is told: each name leads to the next, and the least comes first."""
    words = fault.rstrip(b"\n").split(b" ")
    names = words[2:]
    if words[:2] != [b"undorc:", word] or not names or len(set(names)) != len(names):
        return False
    pairs = zip(names, names[1:] + names[:1])
    return min(names) == names[0] and all(a in steps and b in steps[a] for a, b in pairs)


def difference(bench, case):
    """What the built program does and the plain one does not, nothing where they agree."""
    wanted = program.run(case)
    status, out, reports, fault, kept, left = bench.run(case)
    if wanted.circle is not None:
        word = wanted.fault.split()[1]
        if is_circle(fault, word, wanted.circle):
            fault = wanted.fault
    if wanted.fault is None:
        fault = None if fault else b""
    given = (status, out, reports, fault, kept, left)
    plain = (wanted.status, wanted.out, sorted(wanted.reports), wanted.fault, wanted.kept, case.files(wanted.kept))
    names = ("status", "standard output", "reports", "standard error", "the file of -l", "files")
    return [
        f"{name}: plain {one!r}, built {other!r}"
        for name, one, other in zip(names, plain, given)
        if one != other
    ]


def show(seed, case, lines):
    print(f"FAILED: seed {seed}: undorc {b' '.join(case.arguments())!r}")
    parts = [("input", case.input), ("base", None if case.in_front else case.base)]
    parts += [("other", case.other), ("renames", case.renames), ("kept", case.kept)] + [(f"tree{k}", t) for k, t in enumerate(case.trees)]
    for name, text in parts:
        if text is not None:
            print(f"  {name}: {text!r}")
    for line in lines:
        print(f"  {line}", flush=True)


def try_history(bench, seed):
    """The commands of a seed on one file, and whether both agree on each of them."""
    drawer, words = HistoryDrawer(random.Random(seed)), []
    kept, many = drawer.begin()
    for _ in range(many):
        case = drawer.next_case(kept)
        words.append(case.kind)
        if not agrees(bench, case, seed):
            return words, False
        kept = program.run(case).kept if case.kept == kept else kept
    return words, True


def try_case(bench, seed):
    """The command of a seed, and whether both agree on it."""
    case = Drawer(random.Random(seed)).case()
    return [case.kind], agrees(bench, case, seed)


def agrees(bench, case, seed):
    """Whether both agree on a case; one that differs is shown as small as it gets."""
    if not difference(bench, case):
        return True
    case = shrunk(case, lambda smaller: difference(bench, smaller))
    show(seed, case, difference(bench, case) or ["it did not differ again"])
    return False


def main():
    built, seconds, seed, kind = sys.argv[1], int(sys.argv[2]), int(sys.argv[3]), (sys.argv[4:] or ["cases"])[0]
    try_it = {"cases": try_case, "histories": try_history}[kind]
    bench = Bench(built)
    end = time.monotonic() + seconds
    counts, failed, tried = {}, 0, 0
    while failed < 10 and (tried == 0 or time.monotonic() < end):
        words, agree = try_it(bench, seed + tried)
        for word in words:
            counts[word] = counts.get(word, 0) + 1
        tried += 1
        failed += not agree
    bench.close()
    told = ", ".join(f"{many} of {word}" for word, many in sorted(counts.items()))
    print(f"{tried} drawn {kind} from seed {seed}: {told}")
    passed = tried - failed
    commands = sum(counts.values())
    if failed == 0 and commands < LEAST * seconds:
        print(f"FAILED: only {commands} commands were tried, of at least {LEAST * seconds}")
        failed = 1
    print(f"{passed} passed, {failed} failed")
    sys.exit(failed > 0)


main()
