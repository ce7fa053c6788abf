#!/usr/bin/env python3
"""Fails each call about files and scripts of a command, or kills the command there, and looks at what the next command
makes of it.

    tests/outside/calls.py PROGRAM [--all] [NAME..]

Scripts of six services record what they did. A change, one on a FILE without a database, an undo, a restart, an
update, and an undo and a redo of an update are run under strace, again and again. In each run one call fails, or the program is killed there. So is the
recovery of each of these after a kill. Then the next command enters what was moved. FILE agrees with what the scripts
recorded, but for what was under way; what is live is closed; nothing but FILE.failed and FILE.log is left. An undo, and in another run the
same command, end where they are to end. A command that says that all is done has done it.

By root each command is run on a disk that is full, too. Each call fails by one error, and of calls that only look each
third one fails. With --all each call fails by each error, and what alters files is cut with three workers, too, and in
scripts. The last line is 'N passed, M failed, K skipped'.
"""

import copy
import os
import shutil
import signal
import subprocess
import sys
import tempfile

sys.dont_write_bytecode = True
sys.path.insert(0, os.path.join(os.path.dirname(os.path.realpath(__file__)), "..", "lib"))
from cuts import Wrong, adopt_orphans, read, recorded, session_of, standing, under_way, wait_for_orphans

# The errors of each call, of which the first one is always tried.
ERRORS = {
    "openat": ["EIO", "EMFILE", "ENOSPC", "EACCES", "EINTR"],
    "read": ["EIO", "EINTR"],
    "pread64": ["EIO", "EINTR"],
    "write": ["ENOSPC", "EIO", "EINTR"],
    "pwrite64": ["ENOSPC", "EIO", "EINTR"],
    "writev": ["ENOSPC", "EIO", "EINTR"],
    "fallocate": ["ENOSPC", "EIO", "EINTR"],
    "ftruncate": ["EIO", "EINTR", "ENOSPC"],
    "fsync": ["EIO", "EINTR", "ENOSPC"],
    "fdatasync": ["EIO", "EINTR", "ENOSPC"],
    "rename": ["EIO", "ENOSPC", "EACCES"],
    "renameat2": ["EIO", "ENOSPC", "EACCES"],
    "unlink": ["EIO", "EACCES"],
    "mkdir": ["EIO", "ENOSPC", "EACCES"],
    "fchmod": ["EPERM", "EIO"],
    "flock": ["EINTR", "EIO"],
    "fcntl": ["EMFILE", "EIO"],
    "close": ["EIO", "EINTR"],
    "statx": ["EIO", "EACCES"],
    "newfstatat": ["EIO", "EACCES"],
    "clone": ["EAGAIN", "ENOMEM"],
    "clone3": ["EAGAIN", "ENOMEM"],
    "vfork": ["EAGAIN", "ENOMEM"],
    "wait4": ["EINTR"],
}
LOOKS = ("read", "pread64", "close", "statx", "newfstatat", "fcntl")
# A kill before any other call leaves what a kill before the next one of these does.
ALTERS = ("write", "pwrite64", "writev", "fallocate", "ftruncate", "fsync", "fdatasync", "rename", "renameat2", "unlink",
          "mkdir", "fchmod", "clone", "clone3", "vfork", "wait4")
NEEDS = {
    "one": {"a": [], "b": ["a"], "c": ["b"], "d": ["a"], "e": [], "f": []},
    "two": {"a": [], "b": ["a", "f"], "c": ["b"], "d": ["a"], "e": [], "f": []},
}
# Where the session stands after each of the commands that make it: the database, and what is up.
PLACES = [("one", set()), ("one", set("ad")), ("one", set("abcd")), ("two", set("abcdf"))]
MAKES = [["change", "a", "d"], ["change", "c"], ["update", "-B", "two"]]
# Each command, how many commands of these stand before it, whether one of them was undone, and the place where it ends.
COMMANDS = {
    "change": (["change", "c"], 1, False, 2),
    "change-plain": (["change", "c"], 1, False, 2),
    "undo": (["undo"], 2, False, 1),
    "restart": (["restart", "b"], 2, False, 2),
    "update": (["update", "-B", "two"], 2, False, 3),
    "undo-update": (["undo"], 3, False, 2),
    "redo-update": (["redo"], 3, True, 3),
}


class Answer:
    """What a command came to."""

    def __init__(self, done):
        self.status, self.out, self.err = done.returncode, done.stdout.decode(), done.stderr.decode(errors="replace")


class Bench:
    """A folder with both databases, and one with the file of the session, and all that lies beside it."""

    def __init__(self, program, room):
        self.program, self.room, self.workers = program, room, "1"
        self.session, self.record = self.path("session"), self.path("record")
        self.texts = {}
        os.mkdir(self.session, 0o700)
        self.environment = dict(os.environ, UNDORC_DB=self.path("one"), UNDORC_LIVE=os.path.join(self.session, "live"),
                                RECORD=self.record, ASAN_OPTIONS="detect_leaks=0")
        for name, needs in NEEDS.items():
            self.compile(name, needs)

    def path(self, name):
        return os.path.join(self.room, name)

    def compile(self, base, needs):
        tree = self.path(base + ".tree")
        for name in needs:
            entry = os.path.join(tree, name)
            os.makedirs(entry)
            texts = {"type": "oneshot\n", "dependencies": "".join(need + "\n" for need in needs[name])}
            for way in ("up", "down"):
                texts[way] = f'echo {way} {name} >> "$RECORD"\n'
            for file, text in texts.items():
                with open(os.path.join(entry, file), "w") as made:
                    made.write(text)
        self.run(["compile", "-o", self.path(base), tree])
        self.texts[base] = read(self.path(base))

    def run(self, words, before=()):
        """A command to its end, behind the words of a tracer."""
        words = [self.path(word) if word in NEEDS else word for word in words]
        workers = ["-w", self.workers] if words[0] in ("change", "undo", "redo", "restart", "update") else []
        done = subprocess.run([*before, self.program, *words[:1], *workers, *words[1:]], env=self.environment,
                              stdin=subprocess.DEVNULL, stdout=subprocess.PIPE, stderr=subprocess.PIPE)
        return Answer(done)

    def files(self):
        """The files of the session, and what the scripts recorded."""
        found = {name: read(os.path.join(self.session, name)) for name in os.listdir(self.session)}
        return found, read(self.record)

    def put(self, files, record):
        """These are there, and nothing else."""
        for name in os.listdir(self.session):
            if name not in files:
                os.unlink(os.path.join(self.session, name))
        for name, text in files.items():
            with open(os.path.join(self.session, name), "wb", opener=lambda path, flags: os.open(path, flags, 0o600)) as made:
                made.write(text)
        with open(self.record, "wb") as made:
            made.write(record)

    def mount(self):
        """A small file system in memory is at the folder of the session; whether it is."""
        words = ["mount", "-t", "tmpfs", "-o", "size=64k,mode=700", "tmpfs", self.session]
        return subprocess.run(words, stderr=subprocess.DEVNULL).returncode == 0

    def unmount(self):
        subprocess.run(["umount", self.session], check=True)

    def fill(self, free):
        """So many bytes are free there, and no more."""
        room = os.statvfs(self.session)
        with open(os.path.join(self.session, "filler"), "wb") as filler:
            filler.write(b"x" * max(0, room.f_bavail * room.f_bsize - free))

    def place(self):
        """The database of the session, and what is up by its file."""
        said = self.run(["live"])
        if said.status != 0 or not said.out.startswith("live"):
            raise Wrong(f"live: {said.out}{said.err}")
        text = read(os.path.join(self.session, "live"))
        found = standing(text)
        base = "one" if found is None else next((name for name in NEEDS if self.texts[name] == found[0]), "none")
        return base, set(said.out.splitlines()[0].split()[1:])


def are_closed(base, up):
    return all(need in up for name in up for need in NEEDS[base][name])


class Situation:
    """A command, what is there when it begins, where it ends, and what the next ones come to."""

    def __init__(self, bench, name):
        self.bench, self.name = bench, name
        self.words, many, is_undone, self.end = COMMANDS[name]
        self.at = many - 1 if is_undone else many
        self.again = self.words
        self.is_recovery = False
        bench.put({}, b"")
        for words in MAKES[:many] + [["undo"]] * is_undone:
            said = bench.run(words)
            if said.status != 0:
                raise Wrong(f"{words}: {said.out}{said.err}")
        self.start = bench.files()
        # The text of a session alone, as `session` makes it: the command makes it a history.
        if name.endswith("-plain"):
            self.start[0]["live"] = session_of(self.start[0]["live"])

    def begin(self):
        self.bench.put(*self.start)

    def trace(self):
        """The calls of a whole run from the first that looks at the session, as strace shows them: each with its name and
        its number among those of that name."""
        self.begin()
        file = self.bench.path("trace")
        strace = ["strace", "-qq", "-s", "64", "-o", file, "-e", "trace=" + ",".join(f"?{call}" for call in ERRORS)]
        self.whole = self.bench.run(self.words, strace)
        self.ended = self.bench.files()
        numbers, begun, found = {}, False, []
        for line in read(file).decode(errors="replace").splitlines():
            call = line.split("(")[0]
            if call in ERRORS:
                numbers[call] = numbers.get(call, 0) + 1
                begun = begun or self.bench.session in line
                if begun:
                    found.append((call, numbers[call], line))
        return found

    def recovery(self, found):
        """The same command, killed where its last transition ends, and then a change of nothing, which enters it."""
        number = max(number for call, number, line in found if call == "pwrite64" and '"done 1 ' in line)
        self.begin()
        self.bench.run(self.words, inject("pwrite64", number, "KILL"))
        wait_for_orphans()
        other = copy.copy(self)
        other.name, other.words, other.is_recovery, other.start = "after-" + self.name, ["change"], True, self.bench.files()
        return other

    def cut(self, call, number, how):
        """One run in which a call fails; looks at what it left, and at what comes next."""
        self.begin()
        before = recorded(self.start[1])
        said = self.bench.run(self.words, inject(call, number, how, self.bench.workers))
        wait_for_orphans()
        self.judge(said, self.bench.files(), before, how)

    def fill(self, pages):
        """One run on a disk with so many pages that are free; the same looks where there is room again. Returns the
        status."""
        before = recorded(self.start[1])
        if not self.bench.mount():
            raise Wrong("a disk in memory can't be mounted")
        try:
            self.begin()
            self.bench.fill(pages * 4096)
            said = self.bench.run(self.words)
            left = self.bench.files()
        finally:
            self.bench.unmount()
        left[0].pop("filler")
        self.judge(said, left, before, "full")
        return said.status

    def judge(self, said, left, before, how):
        logged = under_way(left[0].get("live.run", b""))
        unended = logged | self.under()
        self.judge_words(said, how)
        moved = self.settle(left, unended)
        is_done = said.status == 0 or said.out == self.whole.out
        if is_done and (moved != self.whole_place or logged):
            raise Wrong(f"it said that all is done: status {said.status}, and {show(moved)} stands")
        if said.status == 1 and recorded(left[1]) != before:
            raise Wrong("it was refused, and something has moved")
        self.undo(left, moved, unended)
        self.repeat(left, moved)

    def judge_words(self, said, how):
        """A command ends by a kill, with what it is to do, or with a fault."""
        if said.status == -9 and how == "KILL" or said.status in (0, 2):
            return
        if said.status not in (1, 111) or "undorc: " not in said.err or "Sanitizer" in said.err:
            raise Wrong(f"status {said.status}: {said.out}{said.err}")

    def settle(self, left, unended):
        """The next command is a change of nothing: returns where the session stands then."""
        self.bench.put(*left)
        said = self.bench.run(["change"])
        if said.status != 0:
            raise Wrong(f"the next command, status {said.status}: {said.out}{said.err}")
        moved = self.bench.place()
        if not are_closed(*moved):
            raise Wrong(f"{show(moved)} is not closed")
        if (moved[1] ^ recorded(self.bench.files()[1])) - unended:
            raise Wrong(f"{show(moved)} is up, and by the scripts {show(('', recorded(self.bench.files()[1])))}")
        beside = self.bench.files()[0]
        if set(beside) - {"live.failed", "live.log"} != {"live", "live.lock"}:
            raise Wrong(f"left beside FILE: {' '.join(sorted(beside))}")
        return moved

    def undo(self, left, moved, unended):
        """An undo in place of that: it takes back what stands."""
        wanted = self.undone(moved)
        self.bench.put(*left)
        said = self.bench.run(["undo"])
        reached = self.bench.place()
        if said.status != 0 or reached != wanted:
            raise Wrong(f"an undo, status {said.status}, from {show(moved)} to {show(reached)}: {said.out}{said.err}")
        if (reached[1] ^ recorded(self.bench.files()[1])) - unended:
            raise Wrong(f"after an undo {show(reached)} is up, and by the scripts {show(('', recorded(self.bench.files()[1])))}")

    def undone(self, moved):
        """Where an undo ends. A restart that was done leaves no entry, so an undo takes back the command before it."""
        if self.again[0] == "restart":
            return PLACES[self.at] if moved != PLACES[self.at] else PLACES[self.at - 1]
        if moved == PLACES[self.at] and not self.is_recovery:
            return PLACES[self.at - 1]
        if self.end > self.at:
            return PLACES[self.at]
        return PLACES[self.end - 1] if moved == PLACES[self.end] else PLACES[self.end]

    def repeat(self, left, moved):
        """The same command in place of that: it ends where the first one was to end."""
        wanted, status = PLACES[self.end], 0
        if moved == wanted and self.again[0] == "undo":
            wanted = PLACES[self.end - 1]
        if moved == wanted and self.again[0] == "redo":
            status = 1
        self.bench.put(*left)
        said = self.bench.run(self.again)
        reached = self.bench.place()
        if said.status != status or reached != wanted:
            raise Wrong(f"the same again, status {said.status}, from {show(moved)} to {show(reached)}: {said.out}{said.err}")
        if reached[1] != recorded(self.bench.files()[1]):
            raise Wrong(f"the same again: {show(reached)} is up, and by the scripts {show(('', recorded(self.bench.files()[1])))}")

    def prepare(self):
        """A whole run, and one of a change of nothing before it; the calls of the whole run."""
        found = self.trace()
        if self.whole.status != 0:
            raise Wrong(f"{self.words}: {self.whole.out}{self.whole.err}")
        self.whole_place = self.settle(self.ended, self.under())
        if not self.is_recovery:
            if self.whole_place != PLACES[self.end]:
                raise Wrong(f"{self.words}: {show(self.whole_place)}")
            self.settle(self.start, set())
        return found

    def under(self):
        """What was under way where a recovery begins."""
        return under_way(self.start[0].get("live.run", b"")) if self.is_recovery else set()


def show(place):
    return f"{place[0]} {' '.join(sorted(place[1]))}".strip()


def inject(call, number, how, workers="1"):
    """The words before a program of which this call fails, or is the last; with several workers that of any of them, and
    of a script."""
    what = "signal=KILL" if how == "KILL" else f"error={how}"
    return ["strace", *["-f"] * (workers != "1"), "-qq", "-o", "/dev/null", "-e", f"trace={call}", "-e", f"inject={call}:{what}:when={number}"]


def cuts_of(found, are_all):
    """Which calls fail, and how."""
    looks = 0
    for call, number, line in found:
        if call in LOOKS and not are_all:
            looks += 1
            if looks % 3:
                continue
        for error in ERRORS[call] if are_all else ERRORS[call][:1]:
            yield call, number, error, line
        if call in ALTERS or call == "openat" and "O_CREAT" in line:
            yield call, number, "KILL", line


class Tally:
    def __init__(self):
        self.passed = self.failed = self.skipped = 0
        self.may_mount = False

    def try_it(self, what, call, *words):
        """What a call returns; nothing, where it finds something wrong."""
        try:
            found = call(*words)
            self.passed += 1
            return found
        except Wrong as wrong:
            self.failed += 1
            print(f"FAILED: {what}: {wrong}", flush=True)

    def skip(self, what):
        print(f"skipped: {what}")
        self.skipped += 1


def cut_all(situation, found, are_all, tally):
    """Each cut of a situation, and then disks with ever more room, until it is done on two of them."""
    cuts = list(cuts_of(found, are_all))
    for call, number, how, line in cuts:
        tally.try_it(f"{situation.name}, {how} at {call} {number}, {line}", situation.cut, call, number, how)
    if are_all:
        situation.bench.workers = "3"
        for call, number, how, line in cuts:
            if call in ALTERS and call != "fchmod":
                tally.try_it(f"{situation.name}, 3 workers, {how} at {call} {number}, {line}", situation.cut, call, number, how)
        situation.bench.workers = "1"
    pages = done = 0
    while done < 2 and pages < 12 and tally.may_mount:
        done += tally.try_it(f"{situation.name}, {pages} pages free", situation.fill, pages) == 0
        pages += 1
    print(f"{situation.name}: {len(cuts)} cuts, {pages} disks", flush=True)


def main():
    program, names = os.path.realpath(sys.argv[1]), sys.argv[2:]
    are_all = "--all" in names
    names = [name for name in names if name != "--all"]
    tally = Tally()
    signal.signal(signal.SIGTERM, lambda *_: sys.exit(143))
    adopt_orphans()
    room = tempfile.mkdtemp(dir="/dev/shm" if os.access("/dev/shm", os.W_OK) else None)
    try:
        if subprocess.run(["sh", "-c", "strace -qq -o /dev/null true"], stderr=subprocess.DEVNULL).returncode:
            tally.skip("each call that fails, which takes strace")
            names = ["none"]
        bench = Bench(program, room)
        tally.may_mount = os.getuid() == 0 and bench.mount()
        if tally.may_mount:
            bench.unmount()
        else:
            tally.skip("full disks, which take root and the right to mount")
        for name in COMMANDS:
            if not names or name in names or "after-" + name in names:
                situation = Situation(bench, name)
                found = situation.prepare()
                if not names or name in names:
                    cut_all(situation, found, are_all, tally)
                if not names or "after-" + name in names:
                    recovery = situation.recovery(found)
                    cut_all(recovery, recovery.prepare(), are_all, tally)
    finally:
        shutil.rmtree(room)
    print(f"{tally.passed} passed, {tally.failed} failed, {tally.skipped} skipped")
    return 1 if tally.failed else 0


if __name__ == "__main__":
    sys.exit(main())
