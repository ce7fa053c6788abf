"""Scripts: commands with the events of their runs."""

from commands import Run, do, is_silent, journal, live_line, read_command, words_of
from forms import Refusal, is_number, is_text
from live import OLD_BOUND, Line, State


def number(word, least, greatest):
    if not is_number(word) or not least <= int(word) <= greatest:
        raise Refusal("BadLine")
    return int(word)


def read_event(base, words):
    """A take, an end (with whether it went well), or a stop."""
    if len(words) < 3:
        raise Refusal("BadLine")
    worker = number(words[1], 0, 255)
    if words[0] == b"stop" and len(words) == 3:
        return "stop", worker, number(words[2], 0, 2**64 - 1)
    if words[2] not in base.services:
        raise Refusal("BadLine")
    if words[0] == b"take" and len(words) == 3:
        return "take", worker, words[2]
    if words[0] != b"done":
        raise Refusal("BadLine")
    outcome = words[3:]
    if len(outcome) == 2 and outcome[0] == b"failed":
        number(outcome[1], 1, 255)
    elif outcome not in ([b"ok"], [b"timeout"], [b"nostart"]):
        raise Refusal("BadLine")
    return "done", worker, words[2], outcome == [b"ok"]


def read_script(base, text):
    """Commands, each with its events."""
    script = []
    lines = text.split(b"\n")
    if lines[-1] == b"":
        lines.pop()
    for place, line in enumerate(lines):
        if is_silent(line):
            continue
        try:
            if not is_text(line):
                raise Refusal("BadLine")
            words = words_of(line)
            if words[0] not in (b"take", b"done", b"stop"):
                script.append((read_command(line, ()), []))
                continue
            if not script or script[-1][0].word in (b"add", b"delete"):
                raise Refusal("BadLine")
            script[-1][1].append(read_event(base, words))
        except Refusal:
            raise Refusal("BadLine", place + 1) from None
    return script


class Trace:
    """A run as its events tell it: where each service stands, and what each worker holds."""

    def __init__(self, base, task, limit):
        self.base = base
        self.task = task
        self.limit = limit
        self.stands = {s: "up" if s in task.live else "down" for s in base.services}
        self.taken = set()
        self.held = {}
        self.failed = set()
        self.stopped = False

    def may_move(self, name):
        if self.stopped or name in self.taken:
            return False
        if name in self.task.lower:
            others = [s for s in self.base.services if name in self.base.services[s].needs]
            return all(self.stands[s] == "down" for s in others)
        if name in self.task.rise:
            return all(self.stands[s] == "up" for s in self.base.services[name].needs)
        return False

    def event(self, event):
        """Whether the event is legal; it happens then."""
        kind, worker, what = event[:3]
        if not 1 <= worker <= 64:
            return False
        if kind == "stop":
            if not self.limit or what < self.limit or self.stopped:
                return False
            self.stopped = True
            return True
        if kind == "take":
            if worker in self.held or not self.may_move(what):
                return False
            self.held[worker] = what
            self.taken.add(what)
            self.stands[what] = "moving"
            return True
        if self.held.get(worker) != what:
            return False
        del self.held[worker]
        if not event[3]:
            self.failed.add(what)
        self.stands[what] = "up" if (what in self.task.rise) == event[3] else "down"
        return True

    def is_settled(self):
        return not self.held and not any(self.may_move(s) for s in self.base.services)


def by_events(events):
    def carry_out(base, task, limit):
        trace = Trace(base, task, limit)
        for place, event in enumerate(events):
            if not trace.event(event):
                raise Refusal("BadEvent", place)
        if not trace.is_settled():
            raise Refusal("NotSettled", len(events))
        run = Run(s for s in base.services if trace.stands[s] == "up")
        run.failed = trace.failed
        run.left = (task.lower | task.rise) - trace.taken
        run.stopped = trace.stopped
        return run

    return carry_out


def replay(base, text):
    out = b""
    script = read_script(base, text)
    line = Line([State((), base.bundles)], 0, OLD_BOUND)
    for command, events in script:
        try:
            out += do(base, line, command, by_events(events))
        except Refusal as refusal:
            out += b"refused " + refusal.text + b"\n"
    return out + live_line(line) + journal(line)
