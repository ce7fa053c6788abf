"""Carries what is live over from one database to another."""

import database
import histories
import live
from commands import Command, first_missing, has_failed
from forms import Refusal
from plans import Ask, plan, told


def conversion(words):
    """The old name, the new name and whether it is restarted, as the words of a line say; or None."""
    if words[1:] == [b"restart"]:
        return words[0], words[0], True
    if len(words) > 2 and words[1] == b"->" and words[3:] in ([], [b"restart"]):
        return words[0], words[2], len(words) == 4
    return None


def conversions(case):
    """What is restarted, and then what the file of the renames says; no name stands twice."""
    found = [(name, name, True) for name in case.restarts]
    for number, line in enumerate((case.renames or b"").split(b"\n"), 1):
        words = line.replace(b"\t", b" ").split(b" ")
        words = [word for word in words if word]
        if words and not words[0].startswith(b"#"):
            one = conversion(words)
            if one is None:
                raise Refusal("BadLine", number)
            found.append(one)
    for place, (old, new, _) in enumerate(found):
        for name, names in ((old, [one[0] for one in found]), (new, [one[1] for one in found])):
            if name in names[:place]:
                raise Refusal("Twice", name)
    return found


class Passage:
    """The way from one database to another."""

    def __init__(self, old, new, found):
        self.old, self.new, self.found = old, new, found
        self.names = {one[0]: one[1] for one in found}
        self.restarts = {one[0] for one in found if one[2]}
        for name in old.services:
            if name not in self.names and name not in self.names.values():
                self.names[name] = name
        self.names = {name: other for name, other in self.names.items() if other in new.services}

    def difference(self, name):
        """Why a service moves, whatever it needs; None where it is unaltered."""
        if name not in self.names:
            return b"it is gone"
        if name in self.restarts:
            return b"a restart is requested"
        was, now = self.old.services[name], self.new.services[self.names[name]]
        on = lambda other: self.names.get(other, (other,))
        if was.kind != now.kind:
            return b"its kind changed"
        if (was.producer and on(was.producer)) != now.producer:
            return b"its pipeline changed"
        if {on(need) for need in was.needs} != set(now.needs):
            return b"its dependencies changed"
        return None

    def reasons(self, falls):
        """What is said of each service that goes down."""
        for name in sorted(falls):
            need = min((need for need in self.old.services[name].needs if need in falls), default=b"")
            why = self.difference(name) or b"its dependency %s moves" % need
            yield b"undorc: %s moves: %s\n" % (name, why)


def begun(case, old):
    """The history that an update begins on; that of a live text alone has the old database."""
    if histories.is_history(case.kept):
        return histories.read(case.kept)
    return histories.plain(old, case.base, live.begun(old, case.kept, None))


def update(case, answer, do_one):
    case.early = True
    found = conversions(case)
    case.early = False
    if case.looks_at_none:
        answer.fault = histories.NO_FILE
    is_history = histories.is_history(case.kept)
    old = histories.read(case.kept).now().base if is_history else database.read(case.base, True)[0]
    # Without -B the new database is that of -b.
    text = case.base if case.other is None else case.other
    new = database.read(text, True)[0]
    for one in found:
        first_missing([old], [(b"", one[0])])
        first_missing([new], [(b"", one[1])])
    for side, base in ((b"down", old), (b"up", new)):
        first_missing([base], [one for one in case.failing if one[0] == side])
    history = begun(case, old)
    if case.dry:
        show(case, answer, Passage(old, new, found), history)
        return
    if history.now().is_passed() and history.can_step(-1):
        answer.out = history.travel(Command(b"undo"), do_one)
    was_same = is_history and text == history.now().text and not found
    if has_failed(answer.out):
        answer.status = 2
    elif was_same:
        answer.out += b"ok\nok\n"
    else:
        carry_over(text, answer, do_one, Passage(history.now().base, new, found), history)
    answer.kept = history.written()


def asks(way, up):
    """What the first change lowers, what these services go on as, and what the second change raises."""
    on = lambda names: {way.names[s] for s in names if s in way.names}
    return Ask("D", 0, sorted(s for s in up if way.difference(s))), on, Ask("u", 0, sorted(on(up)))


def show(case, answer, way, history):
    """The plans of both changes."""
    up = set(history.now().line.now().live)
    down, on, again = asks(way, up)
    first = plan(way.old, {}, up, down)
    second = plan(way.new, {}, on(up - first.lower), again)
    answer.out = told(first) + b"ok\n" + told(second) + b"ok\n"
    answer.reports = list(way.reasons(first.lower))


def carry_over(new, answer, do_one, way, history):
    """Both changes, and the border between them, to the database of this text."""
    was, line = history.now(), history.now().line
    history.is_plain = False
    down, on, again = asks(way, set(line.now().live))
    text, first, is_first_passed = was.written(), line.states[0], was.is_first_passed
    lowered = do_one(history, Command(b"change", ask=down))
    answer.out += lowered
    # A step leaves the mark of the state on which it begins.
    if line.states[0] is first:
        was.is_first_passed = is_first_passed
    has_moved = was.written() != text
    was.is_last_passed = has_moved or was.is_last_passed
    if not has_failed(lowered):
        del line.states[line.cursor + 1 :]
        was.is_last_passed = has_moved
        renames = [one[:2] for one in way.found if not one[2]]
        session = live.Line([live.State(on(line.now().live), way.new.bundles)], 0, line.bound)
        behind = histories.Generation(new, session, renames=renames)
        history.generations[history.at + 1 :] = [behind]
        history.at += 1
        if len(history.generations) > histories.GREATEST:
            del history.generations[0]
            history.at -= 1
            history.generations[0].renames = []
        raised = do_one(history, Command(b"change", ask=again))
        answer.out += raised
        behind.is_last_passed = has_failed(raised)
        behind.is_first_passed = len(session.states) > 1 or has_failed(raised)
    answer.status = 2 if has_failed(answer.out) else 0
