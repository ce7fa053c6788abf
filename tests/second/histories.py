"""Histories: several databases with a session each, of which one is the present one, and the moves across their borders."""

import copy

import database
import live
import plans
from case import is_history
from commands import Command, do, entries, fail_by_list, has_failed, task_of
from forms import Lines, Refusal, is_name, is_number

GREATEST = 8
NOT_THIS = b"undorc: base is not the database of this session: undorc update -b base -l kept carries it over\n"
NO_FILE = b"undorc: kept does not exist: nothing is up\n"
NOT_FINISHED = b"undorc: an update or a restart was not finished: undorc undo -b base -l kept takes it back\n"


class Generation:
    """A database with its session; whether undo and redo go on from the first and from the last of its states. The texts
    in a file are read where they are used."""

    def __init__(self, text, line, is_first_passed=False, is_last_passed=False, renames=(), base=None):
        self.text = text
        self.read_base = base
        self.read_line = line
        self.is_first_passed = is_first_passed
        self.is_last_passed = is_last_passed
        self.renames = list(renames)

    @property
    def base(self):
        if self.read_base is None:
            self.read_base = database.read(self.text, True)[0]
        return self.read_base

    @property
    def line(self):
        if isinstance(self.read_line, bytes):
            self.read_line = live.read(self.base, self.read_line)
        return self.read_line

    def is_passed(self):
        """Whether undo and redo go on from the current state."""
        at = self.line.cursor
        return at == 0 and self.is_first_passed or at == len(self.line.states) - 1 and self.is_last_passed

    def written(self):
        marks = [b"passed" if mark else b"stop" for mark in (self.is_first_passed, self.is_last_passed)]
        text = self.read_line
        text = text if isinstance(text, bytes) else live.text_of(self.base, text)
        renames = b"".join(b"rename %s %s\n" % pair for pair in self.renames)
        return (b"generation %s\ndatabase %d\n%ssession %d\n%srenames %d\n%s"
                % (b" ".join(marks), len(self.text), self.text, len(text), text, len(self.renames), renames))


class Frame(Lines):
    """The lines of a history that are not those of its texts, and where they are."""

    def __init__(self, text):
        super().__init__(text)
        self.places = []

    def passed(self):
        self.places.append((self.at, self.end))
        super().passed()


class History:
    """Generations, oldest first. A live text alone is plain: a generation whose database is not in the file."""

    def __init__(self, generations, at, is_plain):
        self.generations = generations
        self.at = at
        self.is_plain = is_plain
        # Where the lines of the frame are in the text.
        self.places = []
        # The states of the last undo or redo, from where it began: the generation of each, and its place there.
        self.reached = []

    def now(self):
        return self.generations[self.at]

    def written(self):
        if self.is_plain:
            return live.text_of(self.now().base, self.now().line)
        texts = b"".join(one.written() for one in self.generations)
        return b"undorc-history 1\nat %d of %d\n%send\n" % (self.at, len(self.generations), texts)

    def make_oldest(self):
        """The generations before the present one go."""
        del self.generations[: self.at]
        self.at = 0
        self.now().renames = []

    def do(self, command, carry_out, is_session=False):
        """A line of the present session: its answer. What lies beyond a state that goes, goes with it. A state that comes
        back at the same end has not gone, where it is a line of `session`."""
        now, line = self.now(), self.now().line
        states, at = list(line.states), line.cursor
        said = do(now.base, line, command, carry_out)
        if is_session and line.states[0].same(states[0]):
            line.states[0] = states[0]
        if is_session and line.states[-1].same(states[-1]):
            line.states[-1] = states[-1]
        if line.states[0] is not states[0]:
            self.make_oldest()
            now.is_first_passed = False
        if line.states[-1] is not states[-1]:
            del self.generations[self.at + 1 :]
            now.is_last_passed = False
            if at == 0 and command.word not in (b"undo", b"redo"):
                now.is_first_passed = False
        return said

    def step(self, command, do_one):
        """A step of a command of several: the state that it comes to is passed, unless it goes back. What comes after goes."""
        now, line = self.now(), self.now().line
        states, at, is_first_passed = list(line.states), line.cursor, now.is_first_passed
        said = do_one(self, command)
        if line.cursor == at and line.states[at] is states[at]:
            return said
        is_kept = line.states[0] is states[0]
        is_back = is_kept and line.cursor < at
        del line.states[line.cursor + 1 :]
        del self.generations[self.at + 1 :]
        now.is_first_passed = is_kept and is_first_passed
        now.is_last_passed = not is_back
        if len(line.states) == 1:
            now.is_last_passed = now.is_first_passed
        return said

    def can_step(self, way):
        at = self.now().line.cursor + way
        return 0 <= at < len(self.now().line.states) or 0 <= self.at + way < len(self.generations)

    def is_cut(self):
        """Whether the current state is passed, and an undo leads back from there."""
        return self.now().is_passed() and self.can_step(-1)

    def is_cut_inside(self):
        """Whether the current state is passed, and an undo from there crosses no border."""
        at = self.now().line.cursor
        return self.now().is_passed() and (at > 1 or at == 1 and not self.now().is_first_passed)

    def travel(self, command, do_one):
        """An undo or a redo: a step, and on while the state that is reached was only passed. The answers, without those of
        borders."""
        way = -1 if command.word == b"undo" else 1
        if not self.can_step(way):
            raise Refusal("NothingToUndo" if way < 0 else "NothingToRedo")
        answers = []
        self.reached = [(self.at, self.now().line.cursor)]
        while True:
            if 0 <= self.now().line.cursor + way < len(self.now().line.states):
                answers.append(do_one(self, command))
                if has_failed(answers[-1]):
                    break
            else:
                self.at += way
            self.reached.append((self.at, self.now().line.cursor))
            if not self.now().is_passed() or not self.can_step(way):
                break
        return b"".join(answers) or b"ok\n"

    def shown(self, command):
        """What that would move: the plan of each run, as if those before it had succeeded. And the entries of the journal
        that it goes along, or none where a text can't be read."""

        def do_one(trial, command):
            said = plans.told(task_of(trial.now().base, trial.now().line, command)[0]) + b"ok\n"
            trial.do(command, fail_by_list([]))
            return said

        trial = copy.deepcopy(self)
        said = trial.travel(command, do_one)
        try:
            entries = self.journal().split(b"\n")[1:]
        except Refusal:
            return said, []
        numbers = [self.number(*place) for place in trial.reached]
        return said, [entries[min(pair)].removesuffix(b" ..") for pair in zip(numbers, numbers[1:])]

    def current(self):
        """The number of the current state among those of all generations."""
        return self.number(self.at, self.now().line.cursor)

    def can_go_back(self, number):
        """Whether undos can end on the state of this number: the current one, or a stop before it."""
        if number >= self.current():
            return number == self.current()
        lead = self.journal().split(b"\n")[1:]
        return number == 0 or not lead[number - 1].endswith(b" ..")

    def go_back(self, number, do_one):
        """Undos until the state of this number is the current one, or until one is not all done. Their answers."""
        answers = []
        while self.current() != number and not (answers and has_failed(answers[-1])):
            answers.append(self.travel(Command(b"undo"), do_one))
        return b"".join(answers) or b"ok\n"

    def number(self, place, cursor):
        """The number of a state of a generation among those of all."""
        return sum(len(one.line.states) for one in self.generations[:place]) + cursor

    def journal(self):
        """The states of all generations, and the borders between them."""
        at, count, lines = 0, 0, []
        for place, one in enumerate(self.generations):
            states = one.line.states
            if place > 0:
                words = [b"%d update" % (count - 1)] + [b"%s>%s" % pair for pair in one.renames]
                is_passed = one.is_first_passed or len(states) == 1 and one.is_last_passed
                lines.append(b" ".join(words + [b".."] * is_passed))
            own = entries(one.line, count)
            if own and one.is_last_passed:
                own[-1] += b" .."
            lines += own
            at = count + one.line.cursor if place == self.at else at
            count += len(states)
        return b"at %d of %d\n" % (at, count) + b"".join(line + b"\n" for line in lines)

    def seal(self):
        """The current state alone is kept."""
        now = self.now()
        line = live.Line([now.line.now()], 0, now.line.bound)
        self.generations, self.at = [Generation(now.text, line, base=now.base)], 0

    def bases(self, command):
        """The databases in which a command runs: of an undo or a redo those on its way, too."""
        trial, found = copy.deepcopy(self), [self.now().base]

        def do_one(trial, command):
            found.append(trial.now().base)
            return trial.do(command, fail_by_list([]))

        if command in (b"undo", b"redo"):
            try:
                trial.travel(Command(command), do_one)
            except Refusal:
                pass
        return found


def plain(base, text, line):
    """The history of a live text alone, given as a line of states."""
    return History([Generation(text, line, base=base)], 0, True)


def history_of(text, kept):
    """The history of a file; of a live text alone, and where there is none, that of this database."""
    if is_history(kept):
        return read(kept)
    base = database.read(text, True)[0]
    return plain(base, text, live.begun(base, kept, None))


def counted(lines, word, greatest=None):
    """The number behind a word."""
    words = lines.next_line()
    if len(words) != 2 or words[0] != word or not is_number(words[1]):
        raise lines.bad()
    if greatest is not None and int(words[1]) > greatest:
        raise lines.bad()
    lines.passed()
    return int(words[1])


def block(lines, word):
    """A text of as many bytes as the line before it says."""
    begin = lines.at
    length = counted(lines, word)
    text = lines.text[lines.at : lines.at + length]
    if len(text) < length:
        raise Refusal("Bad", begin)
    lines.at += length
    return text


def read_generation(lines, is_oldest):
    words = lines.next_line()
    if len(words) != 3 or words[0] != b"generation" or not set(words[1:]) <= {b"stop", b"passed"}:
        raise lines.bad()
    lines.passed()
    marks = [word == b"passed" for word in words[1:]]
    base, session = block(lines, b"database"), block(lines, b"session")
    renames = []
    for _ in range(counted(lines, b"renames", 0 if is_oldest else database.GREATEST)):
        words = lines.next_line()
        if len(words) != 3 or words[0] != b"rename" or not all(is_name(word) for word in words[1:]):
            raise lines.bad()
        renames.append(tuple(words[1:]))
        lines.passed()
    return Generation(base, session, *marks, renames)


def read(text):
    """The history of a text."""
    lines = Frame(text)
    lines.version(b"undorc-history", (1,))
    words = lines.next_line()
    if len(words) != 4 or words[0] != b"at" or words[2] != b"of" or not (is_number(words[1]) and is_number(words[3])):
        raise lines.bad()
    at, many = int(words[1]), int(words[3])
    if not 1 <= many <= GREATEST or at >= many:
        raise lines.bad()
    lines.passed()
    generations = [read_generation(lines, place == 0) for place in range(many)]
    lines.whole([b"end"])
    lines.nothing_more()
    found = History(generations, at, False)
    found.places = lines.places
    return found
