#!/usr/bin/env python3
"""Kills commands at random moments, and looks at what the next command makes of it.

    tests/outside/kills.py PROGRAM [ROUNDS [SEED]]

Scripts of 40 services record what they did. Each round begins a change, an undo, a redo, an update, a restart, or a
session of three lines, and kills it, or the recovery of an earlier one, at a random moment. Now and then FILE is made a
text without a database before that. The next command waits for the scripts that still run: no two of one service run at
once. After it the file of the session agrees with what the scripts recorded, but for what was under way; what is live is
closed; nothing is refused as unfit; and an undo takes the entry back. An update or a restart that was killed is now and
then given again, which leaves up what it found up; or it is undone, which restores that and the database. The last line
is 'N passed, M failed'.
"""

import os
import random
import signal
import subprocess
import sys
import tempfile
import time

sys.dont_write_bytecode = True
sys.path.insert(0, os.path.join(os.path.dirname(os.path.realpath(__file__)), "..", "lib"))
from cuts import Wrong, adopt_orphans, is_history, read, recorded, session_of, standing, under_way, wait_for_orphans

SERVICES = 40
KILLS = [signal.SIGKILL, signal.SIGKILL, signal.SIGTERM, signal.SIGINT]


class Machine:
    """A folder with two databases, the file of a session, and what the scripts did."""

    def __init__(self, program, folder, draw):
        self.program, self.folder, self.draw = program, folder, draw
        self.names = [f"s{number:02}" for number in range(SERVICES)]
        self.bases = [self.path("one"), self.path("two")]
        self.needs = {base: {} for base in self.bases}
        self.live_file = self.path("live")
        for number, name in enumerate(self.names):
            earlier = self.names[:number]
            needs = draw.sample(earlier, min(number, draw.choice([0, 1, 1, 2, 3])))
            others = needs[1:] or earlier[:1]
            for base, needs in zip(self.bases, (needs, others if number % 5 == 0 else needs)):
                self.needs[base][name] = needs
        self.base = self.bases[0]
        self.failing = failing = set(draw.sample(self.names, 2))
        for base in self.bases:
            self.compile(base, failing)

    def path(self, name):
        return os.path.join(self.folder, name)

    def hindered(self):
        """The services that fail, and what needs one of them, by the present database."""
        found = set(self.failing)
        for name in self.names:
            if found.intersection(self.needs[self.base][name]):
                found.add(name)
        return found

    def compile(self, base, failing):
        """A database; in the second one some services need others, so that an update moves them."""
        tree = f"{base}.tree"
        for number, name in enumerate(self.names):
            entry = os.path.join(tree, name)
            os.makedirs(entry)
            with open(os.path.join(entry, "type"), "w") as file:
                file.write("oneshot\n")
            with open(os.path.join(entry, "dependencies"), "w") as file:
                file.write("".join(need + "\n" for need in self.needs[base][name]))
            pause = (number * 7) % 9 + 1
            for way in ("up", "down"):
                fails = "exit 1; " if name in failing and way == "up" else ""
                runs = self.path(f"{name}.runs")
                with open(os.path.join(entry, way), "w") as file:
                    file.write(f"(set -C; : > {runs}) 2> /dev/null || echo {name} >> {self.path('beside')}\n"
                               f"sleep 0.0{pause}; rm -f {runs}; {fails}echo {way} {name} >> {self.path('done')}\n")
        self.run("compile", "-o", base, tree)

    def present(self):
        """The database of the session: the one in its file, or where that is a live text alone the one that is named."""
        return self.standing()[0]

    def standing(self):
        """The same, and whether an undo goes on from the state on which the session stands."""
        found = standing(read(self.live_file))
        if found is None:
            return self.base, False
        for base in self.bases:
            if read(base) == found[0]:
                return base, found[1]
        raise Wrong("the database of the session is none of both")

    def make_plain(self):
        """The file of the session has its text alone, as `session` makes it. Its database is the one that is named."""
        self.base, text = self.present(), read(self.live_file)
        if is_history(text):
            with open(self.live_file, "wb") as file:
                file.write(session_of(text))

    def environment(self):
        return dict(os.environ, UNDORC_DB=self.base, UNDORC_LIVE=self.live_file)

    def run(self, *words, lines=""):
        """A command to its end."""
        return subprocess.run([self.program, *words], env=self.environment(), input=lines, text=True,
                              stdout=subprocess.PIPE, stderr=subprocess.PIPE)

    def live(self):
        """The names that the file of the session has up."""
        said = self.run("live")
        if not said.stdout.startswith("live"):
            raise Wrong(f"live: {said.stdout}{said.stderr}")
        return set(said.stdout.splitlines()[0].split()[1:])

    def done(self):
        """The names that are up by what the scripts did."""
        return recorded(read(self.path("done")))

    def agree(self, up):
        """The scripts are taken to have done what is up now: an administrator would see to it."""
        with open(self.path("done"), "w") as file:
            file.write("".join(f"up {name}\n" for name in sorted(up)))

    def under_way(self):
        """The names whose transitions the run log begins and does not end."""
        return under_way(read(self.path("live.run")))

    def are_named(self, names):
        """Whether the run log names a process for each of these."""
        lines = [line.split() for line in read(self.path("live.run")).decode(errors="replace").splitlines()]
        return names <= {words[2] for words in lines if words[:2] == ["#", "process"]}

    def cut_short(self, words, lines, pause):
        """A command that is killed after a pause, if it has not ended by then."""
        process = subprocess.Popen([self.program, *words], env=self.environment(), stdin=subprocess.PIPE,
                                   stdout=subprocess.DEVNULL, stderr=subprocess.DEVNULL)
        try:
            process.stdin.write(lines.encode())
            process.stdin.close()
        except BrokenPipeError:
            pass
        time.sleep(pause)
        process.send_signal(self.draw.choice(KILLS))
        process.wait()


def command(machine):
    """A command drawn at random, and its input."""
    draw, names = machine.draw, machine.names
    workers = str(draw.choice([1, 3, 8]))
    kind = draw.choice(["change", "lower", "prune", "undo", "redo", "update", "restart", "session"])
    if kind == "change":
        return ["change", "-w", workers, *draw.sample(names, 8)], ""
    if kind == "lower":
        return ["change", "-D", "-w", workers, *draw.sample(names, 3)], ""
    if kind == "prune":
        return ["change", "-p", "-w", workers, *draw.sample(names, 6)], ""
    if kind in ("undo", "redo"):
        return [kind, "-w", workers], ""
    if kind == "update":
        other = machine.bases[1 - machine.bases.index(machine.base)]
        return ["update", "-B", other, "-w", workers], ""
    if kind == "restart":
        up = sorted(machine.live()) or names
        return ["restart", "-w", workers, *draw.sample(up, min(len(up), 2))], ""
    lines = "".join(f"change {' '.join(draw.sample(names, 3))}\n" for _ in range(3))
    return ["session", "-w", workers], lines


def settle(machine, *words):
    """The next command, a change of nothing or of these services; returns what it told."""
    machine.base = machine.present()
    said = machine.run("change", *words)
    if said.returncode != 0 and not (words and said.returncode == 2):
        raise Wrong(f"the next command: {said.stdout}{said.stderr}")
    return said.stderr


def judge(machine, words, unended):
    """What the file has now, beside what the scripts did."""
    up = machine.live()
    for name in up:
        for need in machine.needs[machine.base][name]:
            if need not in up:
                raise Wrong(f"{name} is up without {need}")
    beside = read(machine.path("beside"))
    if beside:
        raise Wrong(f"two scripts of one service ran at once: {' '.join(beside.decode().split())}")
    lost = (machine.done() ^ up) - unended
    if lost:
        raise Wrong(f"{' '.join(words)}: forgotten: {' '.join(sorted(lost))}")
    machine.agree(up)


def undo(machine, before):
    """An undo of what was entered brings back what was up before."""
    said = machine.run("undo", "-w", "8")
    up = machine.live()
    machine.agree(up)
    if up != before:
        raise Wrong(f"an undo left {' '.join(sorted(up ^ before))}: {said.stdout}{said.stderr}")


def repeat(machine, words, base, before):
    """An update that was killed, given again: what was up before it is up, with what it needs in the other database, but
    for what needs a service there that fails."""
    machine.base = base
    said = machine.run(*words)
    machine.base = machine.present()
    up = machine.live()
    machine.agree(up)
    lost = before - up
    if said.returncode != (2 if lost else 0) or lost - machine.hindered() or machine.base == base:
        raise Wrong(f"the update again, status {said.returncode}: {' '.join(sorted(lost))}: {said.stdout}{said.stderr}")


def restart_again(machine, words, before):
    """A restart that was killed, given again: what was up before it is up."""
    said = machine.run(*words)
    up = machine.live()
    machine.agree(up)
    if said.returncode != 0 or up != before:
        raise Wrong(f"the restart again, status {said.returncode}: {' '.join(sorted(up ^ before))}: {said.stdout}{said.stderr}")


def take_back(machine, base, before):
    """An undo of an update that was killed: what was up before it is up, by the database of then."""
    undo(machine, before)
    if machine.present() != base:
        raise Wrong("an undo left the database of an update")
    machine.base = base


def round_of(machine):
    """One command that is killed, and the next one; returns whether it was recovered."""
    if machine.draw.random() < 0.15:
        machine.make_plain()
    words, lines = command(machine)
    before = machine.live()
    text = read(machine.live_file)
    base, is_passed = machine.standing()
    machine.cut_short(words, lines, machine.draw.uniform(0.005, 0.5))
    unended = machine.under_way()
    # A recovery that is killed itself, now and then, or a command that is no update has entered the log.
    if machine.draw.random() < 0.3:
        machine.cut_short(["change"], "", machine.draw.uniform(0.0, 0.01))
    # A program whose command is killed before its process stands in the log is not waited for.
    if not machine.are_named(unended):
        wait_for_orphans()
    if words[0] in ("update", "restart") and not is_passed and machine.draw.random() < 0.4:
        wait_for_orphans()
        machine.agree(machine.done())
        if words[0] == "update":
            repeat(machine, words, base, before)
        else:
            restart_again(machine, words, before)
        return False
    if machine.draw.random() < 0.3:
        told = settle(machine, "-w", "8", *unended)
        judge(machine, words, unended)
        return "Recovered" in told
    told = settle(machine)
    judge(machine, words, unended)
    is_entered = "Recovered" in told
    # A change on a passed state leaves a stop, as if it had not been killed.
    if is_entered and words[0] == "change" and machine.live() != before and machine.draw.random() < 0.3:
        undo(machine, before)
    if words[0] == "restart" and not is_passed and machine.live() != before and machine.draw.random() < 0.5:
        undo(machine, before)
    if words[0] == "update" and is_history(text) and not is_passed and read(machine.live_file) != text and machine.draw.random() < 0.6:
        take_back(machine, base, before)
    return is_entered


def main():
    program = os.path.realpath(sys.argv[1])
    rounds = int(sys.argv[2]) if len(sys.argv) > 2 else 200
    seed = int(sys.argv[3]) if len(sys.argv) > 3 else int(time.time()) // 86400
    print(f"kills.py: seed {seed}")
    adopt_orphans()
    passed = failed = entered = 0
    with tempfile.TemporaryDirectory() as folder:
        machine = Machine(program, folder, random.Random(seed))
        for number in range(rounds):
            try:
                entered += round_of(machine)
                passed += 1
            except Wrong as wrong:
                failed += 1
                print(f"FAILED: round {number} of seed {seed}: {wrong}")
                if failed == 5:
                    break
                machine.agree(machine.live())
    if not entered:
        failed += 1
        print("FAILED: no command was recovered")
    print(f"{entered} of {rounds} were recovered")
    print(f"{passed} passed, {failed} failed")
    return 1 if failed else 0


if __name__ == "__main__":
    sys.exit(main())
