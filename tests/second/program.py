"""The whole program: words, standard input and files in; a status, what is written, and files out.

It is written from docs/FORMATS.md, docs/COMMANDS.md and docs/MODEL.md, and shares no code with the program that is proved.
It is plain and slow, and reads no wrong command line.
"""

import re

import database
import histories
import live
import plans
import queries
import replay
import sources
import updates
from case import ON_FILES, ONE_SHOTS
from commands import Command, fail_by_list, first_missing, has_failed, is_silent, read_command
from forms import Failure, Refusal

LONGEST_LINE = 65536
LOOKS = (b"live", b"bundles", b"journal")
# What an undo and a redo that are only shown say of each entry.
WAYS = {"undo": b"takes back", "redo": b"makes again"}
NO_KEEPER = b"undorc: -l is missing, or UNDORC_LIVE: the file that keeps what is up\n"
# Control characters, and how those are written on standard error that have an escape of their own.
CONTROL = re.compile(rb"[\x00-\x1f\x7f]|\xc2[\x80-\x9f]")
ESCAPES = {b"\0": rb"\0", b"\t": rb"\t", b"\n": rb"\n", b"\r": rb"\r"}


class Answer:
    """What a run comes to: `fault` is the line on standard error behind `reports`, those of transitions and of why
    services move, or None for any line, and `kept` the file of -l."""

    def __init__(self, status=0, out=b"", fault=b"", kept=None, circle=None):
        self.status = status
        self.reports = []
        self.out = out
        self.fault = fault
        self.kept = kept
        self.circle = circle


def shown(text):
    """A text as standard error has it: with its control characters as escapes."""
    return CONTROL.sub(lambda found: ESCAPES.get(found[0]) or rb"\u{%x}" % ord(found[0].decode()), text)


def base_and_input(case):
    """The database, and the input that is the command's own."""
    if not case.in_front:
        return database.read(case.base, True)[0], case.input
    return database.read(case.input, False)


def lines_of(text):
    lines = text.split(b"\n")
    return lines[:-1] if lines[-1] == b"" else lines


def read_live(base, text):
    names = []
    for line in lines_of(text):
        if line and line not in base.services:
            raise Refusal("Unknown", line)
        names.append(line)
    some = {name for name in names if name}
    if plans.up_closure(base, some) != some:
        raise Refusal("NotClosed")
    return some


def begun(case, answer):
    """The history with which a session begins, and the rest of the input. The database is that of the history. A command
    that writes makes a live text alone a history with the database of -b; a session does not."""
    if histories.is_history(case.kept):
        history = histories.read(case.kept)
        if case.base not in (None, history.now().text):
            answer.fault = histories.NOT_THIS
        elif case.locks and case.word not in ("undo", "redo") and history.is_cut():
            if case.word != "restart" or not history.is_cut_inside():
                answer.fault = histories.NOT_FINISHED
        first_missing(history.bases(case.word.encode()), case.failing)
        return history, case.input
    base, text = base_and_input(case)
    first_missing([base], case.failing)
    history = histories.plain(base, case.base, live.begun(base, case.kept, case.bound))
    history.is_plain = case.word == "session" or case.in_front or not case.locks
    return history, text


def session(case, answer):
    history, text = begun(case, answer)
    keeps = lambda: history.written() if case.keeps else None
    answer.kept = keeps()
    for words in lines_of(text):
        if len(words) > LONGEST_LINE:
            raise Failure("TooLong")
        if is_silent(words):
            continue
        try:
            command = read_command(words, LOOKS)
            said = history.do(command, fail_by_list(case.failing), is_session=True)
        except Refusal as refusal:
            said = b"refused " + refusal.text + b"\n"
        answer.out += said
        answer.kept = keeps()


def one_shot(case, answer):
    """A session of one line; what only shows something leaves the file alone. An undo or a redo crosses borders."""
    history, _ = begun(case, answer)
    command = Command(case.word.encode(), case.limit, case.ask, case.force, case.words)
    if case.locks:
        answer.kept = history.written()
    try:
        if case.dry and case.word == "change":
            command.word = b"dry"
        if case.word == "journal" and not history.is_plain:
            answer.out = history.journal() + b"ok\n"
        elif case.word in WAYS and case.dry:
            answer.out, entries = history.shown(command)
            told = b"".join(b"undorc: %s %s\n" % (WAYS[case.word], shown(entry)) for entry in entries)
            answer.reports += [told] if told else []
        elif case.word in WAYS:
            answer.out = history.travel(command, doing(case, answer))
        else:
            answer.out = doing(case, answer)(history, command)
    except Refusal as refusal:
        answer.out = b"refused " + refusal.text + b"\n"
        answer.status = 1
    if case.locks:
        answer.kept = history.written()
    if has_failed(answer.out):
        answer.status = 2


def go_back(case, answer):
    """Undos back to a state. One that can't be reached is refused. The file is written if one alters the session."""
    history, _ = begun(case, answer)
    if not history.can_go_back(case.to):
        raise Refusal("NoState", case.to)
    is_there = history.current() == case.to
    answer.out = history.go_back(case.to, doing(case, answer))
    session = live.text_of(history.now().base, history.now().line)
    answer.kept = case.kept if is_there or session == case.kept else history.written()
    answer.status = 2 if has_failed(answer.out) else 0


def doing(case, answer):
    """What does one line of a session, and reports what fails."""

    def do_one(history, command):
        was = set(history.now().line.now().live)
        said = history.do(command, fail_by_list(case.failing))
        answer.reports += reports_of(lambda name: b"down" if name in was else b"up", said)
        return said

    return do_one


def reports_of(way_of, text):
    """What is reported of the services that an answer says failed."""
    failed = [line.split(b" ")[1:] for line in text.split(b"\n") if line.startswith(b"failed ")]
    return [b"undorc:    0.000 s  %s %s: failed 1\n" % (way_of(name), name) for names in failed for name in names]


def is_down(history, name):
    """Whether a service is down, or each of the services of a bundle."""
    now = history.now().line.now()
    members = {name} if name in history.now().base.services else set(now.bundles.get(name, ()))
    return bool(members) and not members & set(now.live)


def restart(case, answer):
    """What is named and up goes down, with all that needs it, and an undo brings it back. What was cut short is taken back
    before. What was down stays down, which is said."""
    history, _ = begun(case, answer)
    were_down = [name for name in case.words if case.kept is None or is_down(history, name)]
    do_one = doing(case, answer)
    is_taken = history.is_cut_inside()
    if is_taken:
        answer.out = history.travel(Command(b"undo"), do_one)
    if not has_failed(answer.out):
        was = set(history.now().line.now().live)
        try:
            answer.out += history.step(Command(b"change", ask=plans.Ask("D", 0, case.words)), do_one)
            if history.now().line.now().live != was:
                answer.out += history.step(Command(b"undo"), do_one)
        except Refusal as refusal:
            answer.out += b"refused " + refusal.text + b"\n"
            answer.status = 2 if is_taken else 1
    answer.kept = history.written()
    if has_failed(answer.out):
        answer.status = 2
    for name in were_down:
        if answer.status != 1 and not answer.fault and is_down(history, name):
            answer.fault = b"undorc: %s is down, and a restart leaves it down\n" % shown(name)


def seal(case, answer):
    """The current state alone is kept."""
    history, _ = begun(case, answer)
    history.seal()
    answer.kept = history.written()
    answer.out = b"ok\n"


def status(case, answer):
    """Where services stand: those that are named, or all. Without a file none is shown."""
    history, _ = begun(case, answer)
    base, now = history.now().base, history.now().line.now()
    try:
        plans.first_unknown(base, now.bundles, case.words)
    except Refusal as refusal:
        answer.out = b"refused " + refusal.text + b"\n"
        answer.status = 1
        return
    asked = plans.selected(base, now.bundles, case.words) if case.words else set(base.services)
    for name in sorted(asked) if case.kept is not None else ():
        answer.out += name + (b" up\n" if name in now.live else b" down\n")
    answer.status = 3 if case.words and asked - now.live else 0


def query(case, answer):
    """A query of the database of -b, or of one in the file of -l: the present one, or that of -k. A picture of any but
    that of -k fills what is up."""
    if case.generation is not None or histories.is_history(case.kept):
        history = histories.read(case.kept) if histories.is_history(case.kept) else None
        place = case.generation if case.generation is not None else history.at
        if history is None or place >= len(history.generations):
            raise Refusal("NoGeneration", place)
        base, text = history.generations[place].base, history.generations[place].read_line
    else:
        base, text = base_and_input(case)[0], case.kept
    if case.query != b"dot":
        answer.out = queries.answer(base, case.down, case.query, case.words)
        return
    fills = text is not None and case.generation is None
    answer.out = queries.picture(base, live.read(base, text).now().live if fills else ())


def run_of(case, answer):
    if case.word == "compile":
        answer.out = database.text_of(sources.compile_trees(case.trees))
        return
    if case.word == "session":
        session(case, answer)
        return
    if case.word in ONE_SHOTS:
        (one_shot if case.to is None else go_back)(case, answer)
        return
    if case.word in ON_FILES:
        {"restart": restart, "seal": seal, "status": status}[case.word](case, answer)
        return
    if case.word == "update":
        updates.update(case, answer, doing(case, answer))
        return
    if case.word == "db":
        query(case, answer)
        return
    base, text = base_and_input(case)
    if case.word == "replay":
        answer.out = replay.replay(base, text)
    else:
        now = read_live(base, text)
        answer.out = plans.told(plans.plan(base, base.bundles, now, case.ask))


def run(case):
    answer = Answer(kept=case.kept)
    if case.is_wrong:
        answer.status, answer.fault = 100, None if case.keeps or case.dry else NO_KEEPER
        return answer
    if case.word != "update" and case.looks_at_none:
        answer.fault = histories.NO_FILE
    try:
        run_of(case, answer)
    except Refusal as refusal:
        answer.status = 111 if isinstance(refusal, Failure) else 1
        answer.fault = answer.fault or b"undorc: " + shown(refusal.text) + b"\n"
        answer.circle = getattr(refusal, "steps", None)
    return answer
