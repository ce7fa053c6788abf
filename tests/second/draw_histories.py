"""Draws commands in a row on one file: changes, edits, updates, and undos, also to a state, and redos across them."""

import copy

import plans
from case import EDITS, LOOKS, ONE_SHOTS, RUNS, Case
from database import read, text_of
from draw import NAMES, Drawer
from histories import history_of
from live import Line, State
from live import text_of as live_text_of
from plans import Ask


class HistoryDrawer(Drawer):
    def first_kept(self, base):
        """The file of a session of few states at most."""
        return live_text_of(base, self.right_line(base, self.pick([3, 3, 4, 5, 6, 8])))

    def right_line(self, base, bound):
        """A line of states, in form."""
        states = []
        for _ in range(self.random.randrange(1, 4)):
            some = plans.up_closure(base, set(self.some(sorted(base.services), 2)))
            names = [name for name in self.some(NAMES, 12) if name not in base.services]
            state = State(some, {name: frozenset(self.some(sorted(base.services))) for name in names})
            if not states or not state.same(states[-1]):
                states.append(state)
        return Line(states[:bound], self.random.randrange(min(len(states), bound)), bound)

    def begin(self):
        """The file with which a history begins, if any; how many commands follow; how many updates there are beside 20
        others."""
        base = self.base()
        while len(base.services) < 3:
            base = self.base()
        self.texts = [text_of(base)]
        self.updates = self.pick([3, 3, 5, 12])
        return None if self.one_in(10) else self.first_kept(base), self.pick([6, 8, 12, 24])

    def next_case(self, kept):
        """The next command on a file."""
        history = history_of(self.texts[0], kept)
        while True:
            case = self.drawn_case(history, kept)
            if history.places and self.one_in(25):
                return self.spoiled(case, history)
            if not self.is_left_out(case, history):
                return case

    def spoiled(self, case, history):
        """A command on a file in which a line beside the texts has another form, mostly."""
        begin, end = self.pick(history.places)
        line = self.mutated_line(case.kept[begin : end - 1], self.pick([5, 6, 8, 9])) + b"\n" * (not self.one_in(20))
        other = Case(self.pick(("change",) + LOOKS + ("status",)))
        other.base, other.keeps, other.ask = case.base or history.now().text, True, Ask("u", 0, [])
        other.failing, other.workers = [], None
        other.kept = case.kept[:begin] + line + case.kept[end:]
        return other

    def drawn_case(self, history, kept):
        base = copy.copy(history.now().base)
        base.bundles = history.now().line.now().bundles
        words = ["change"] * 4 + ["add", "delete", "restart", "session"] + ["update"] * self.updates
        words += ["undo"] * (6 if history.can_step(-1) else 1) + ["redo"] * (6 if history.can_step(1) else 0)
        case = Case(self.pick(words) if not self.one_in(15) else self.pick(LOOKS + ("status", "seal", "redo")))
        case.base, case.keeps, case.kept = history.now().text, True, kept
        if not history.is_plain and self.one_in(12):
            case.base = self.pick(self.texts)
        # Without -b a command leaves a live text alone as one.
        case.in_front = history.is_plain and case.word in ONE_SHOTS and self.one_in(2)
        self.filled(case, base)
        if case.word == "undo" and self.one_in(2):
            self.way_back(case, history)
        elif case.word == "update":
            self.passage(case, base, history)
        return case

    def way_back(self, case, history):
        """An undo to a state: a stop before the current one mostly, or any other number, perhaps without -b. Now and
        then the command line is wrong."""
        at = history.current()
        stops = [number for number in range(at) if history.can_go_back(number)] or [at]
        passed = [number for number in range(at) if number not in stops] or stops
        case.to = self.pick(self.pick([stops] * 5 + [passed, passed, [at], [at + 1, at + 2, at + 5, 4294967295]]))
        case.limit = self.pick([0, 0, 7])
        case.dry = self.one_in(30)
        case.in_front = case.in_front and self.one_in(3)
        if not history.is_plain and self.one_in(4):
            case.base = None

    def is_left_out(self, case, history):
        """Whether the program does otherwise in such a case than the documents say."""
        now = history.now()
        # Names of -x, -R and RENAMES are looked for at each database on the way, where something may have moved.
        if case.word in ("undo", "redo") or now.is_passed():
            unknown = [one for one in case.failing if not all(one[1] in other.base.services for other in history.generations)]
            if unknown or case.word == "update" and (case.restarts or case.renames is not None):
                return True
        # A session that goes on from a passed state leaves it one, if it began on another, or the state was the only one.
        may_leave = case.word == "session" and (now.is_first_passed or now.is_last_passed)
        return may_leave and (now.is_passed() or b"undo" in case.own or b"redo" in case.own)

    def filled(self, case, base):
        """What else a command is given."""
        if case.word in RUNS + ("restart", "session", "update"):
            case.failing = self.failing(base) if self.one_in(2) else []
            case.workers = self.workers()
        case.dry = case.word in RUNS + ("update",) and self.one_in(10)
        if case.word == "change":
            case.ask = self.ask(base)
            case.ask.words = [word for word in case.ask.words if word in base.services or word in base.bundles or self.one_in(8)]
            case.ask.limit = self.pick([0, 0, 7])
        elif case.word in EDITS:
            case.force = self.one_in(2)
            case.words = [self.fitting(self.bundle_word(base))] + self.fits(base, 3 if case.word == "add" else 1)
        elif case.word in ("restart", "status"):
            case.words = self.fits(base, 3) or [self.fitting(self.word(base))][: case.word == "restart"]
        elif case.word == "session":
            case.own = self.ended(self.lines(base, 5))
            case.bound = self.pick([None, 3, 4, 6]) if case.kept is None else None

    def passage(self, case, base, history):
        """Another database, which may be one of before, or the present one. Without -B it is that of -b, which is then
        no other than the present one mostly, where the file has none."""
        new = self.next_base(base)
        if self.one_in(3):
            case.renames = self.renames(base, new)
        case.other = self.pick(self.texts) if self.one_in(5) else text_of(new)
        has_two = not self.one_in(2)
        if not has_two and (self.one_in(5) or history.is_plain and not self.one_in(8)):
            case.other, case.renames = history.now().text, self.renames_within(base) if self.one_in(3) else None
        new = read(case.other, True)[0]
        if self.one_in(5):
            case.restarts = self.some(sorted(set(base.services) & set(new.services)), 3)
        if case.other in self.texts and not self.one_in(3):
            case.renames, case.restarts = None, []
        if case.failing:
            case.failing = [one for one in case.failing if one[0] == b"down"] if self.one_in(2) else []
            case.failing += [one for one in self.failing(new) if one[0] == b"up"]
        self.texts.append(case.other)
        if not has_two:
            case.base, case.other = case.other, None
        elif not history.is_plain and self.one_in(6):
            case.base = None

    def renames_within(self, base):
        """Some services go on as others of the same database, or restart."""
        names = self.some(sorted(base.services), 3)
        others = self.random.sample(sorted(base.services), len(names))
        ends = [b" restart" if name == other else b" -> " + other for name, other in zip(names, others)]
        return b"".join(name + end + b"\n" for name, end in zip(names, ends))
