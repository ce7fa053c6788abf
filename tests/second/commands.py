"""The lines of sessions and scripts, and what each command comes to."""

from forms import Refusal, is_name, is_text
from live import State
from plans import Ask, Plan, first_unknown, listed, plan, selected, told


class Command:
    """A word, and what stands with it."""

    def __init__(self, word, limit=0, ask=None, force=False, words=()):
        self.word = word
        self.limit = limit
        self.ask = ask
        self.force = force
        self.words = list(words)


def words_of(line):
    return [w for w in line.replace(b"\t", b" ").split(b" ") if w]


def is_silent(line):
    words = words_of(line)
    return not words or words[0][:1] == b"#"


def read_limit(word):
    if not word.isdigit() or len(word) > 10 or int(word) > 4294967295:
        raise Refusal("BadLine")
    return int(word)


def read_options(words):
    """The letters, the limits, and the words behind them."""
    letters, limits = set(), []
    while words and words[0][:1] == b"-":
        if words[0] == b"-t":
            if len(words) < 2:
                raise Refusal("BadLine")
            limits.append(read_limit(words[1]))
            words = words[2:]
            continue
        some = set(words[0][1:].decode())
        if not some or not some <= set(Ask.LETTERS):
            raise Refusal("BadLine")
        letters |= some
        words = words[1:]
    if len(letters & set(Ask.WAYS)) > 1:
        raise Refusal("BadLine")
    return letters, limits, words


def read_edit(words):
    word, rest = words[0], words[1:]
    force = rest[:1] == [b"-f"]
    rest = rest[force:]
    if not rest or (word == b"add" and not is_name(rest[0])):
        raise Refusal("BadLine")
    return Command(word, force=force, words=rest)


def read_command(line, looks):
    """The command of a line; `looks` are those words that stand alone here."""
    if not is_text(line):
        raise Refusal("BadLine")
    words = words_of(line)
    if words[0] in (b"add", b"delete"):
        return read_edit(words)
    if len(words) == 1 and words[0] in looks:
        return Command(words[0])
    letters, limits, words = read_options(words)
    if not words:
        raise Refusal("BadLine")
    limit = limits[-1] if limits else 0
    if words[0] in (b"undo", b"redo") and len(words) == 1 and len(limits) < 2 and not letters:
        return Command(words[0], limit=limit)
    if words[0] == b"change" or (words[0] == b"dry" and looks):
        return Command(words[0], limit, Ask(letters, limit, words[1:]))
    raise Refusal("BadLine")


class Run:
    """What came of a run: what is live, what failed, what was never taken."""

    def __init__(self, live):
        self.live = set(live)
        self.failed = set()
        self.left = set()
        self.stopped = False


def fail_by_list(failing):
    """Runs in which the transitions of a list fail: one service after the other, while any may move."""

    def carry_out(base, task, _limit):
        run = Run(task.live)
        run.left = task.lower | task.rise
        moving = True
        while moving:
            moving = False
            for name in sorted(run.left):
                needs = base.services[name].needs
                if name in task.lower:
                    way = b"down"
                    free = not any(name in base.services[s].needs for s in run.live)
                else:
                    way, free = b"up", all(n in run.live for n in needs)
                if not free:
                    continue
                run.left.discard(name)
                moving = True
                if (way, name) in failing:
                    run.failed.add(name)
                else:
                    run.live ^= {name}
        return run

    return carry_out


def report(task, run):
    before = task.live
    out = listed(b"lowered", before - run.live) + listed(b"raised", run.live - before)
    out += listed(b"failed", run.failed)
    out += listed(b"untried" if run.stopped else b"blocked", run.left)
    return out + listed(b"kept", task.kept) + b"ok\n"


def task_of(base, line, command):
    """The run that a change, an undo or a redo asks for, and its limit."""
    now = line.now()
    if command.word == b"change":
        return plan(base, now.bundles, set(now.live), command.ask), command.limit
    way = -1 if command.word == b"undo" else 1
    if not 0 <= line.cursor + way < len(line.states):
        raise Refusal("NothingToUndo" if way < 0 else "NothingToRedo")
    aim = line.states[line.cursor + way].live
    return Plan(now.live, aim, ()), command.limit if aim != now.live else 0


def move(base, line, command, carry_out):
    task, limit = task_of(base, line, command)
    run = carry_out(base, task, limit)
    if command.word == b"change":
        line.go_on(State(run.live, line.now().bundles))
    else:
        line.step(-1 if command.word == b"undo" else 1, frozenset(run.live))
    return report(task, run)


def edit(base, line, command):
    table = dict(line.now().bundles)
    words = command.words[:1] if command.word == b"add" else command.words
    for word in words:
        if word in base.services:
            raise Refusal("IsAtomic", word)
    if command.word == b"add":
        if words[0] in table and not command.force:
            raise Refusal("Exists", words[0])
        first_unknown(base, table, command.words[1:])
        if len(table) == 4096 and words[0] not in table:
            raise Refusal("Full")
        table[words[0]] = frozenset(selected(base, table, command.words[1:]))
    else:
        for word in words:
            if word not in table and not command.force:
                raise Refusal("Missing", word)
        for word in words:
            table.pop(word, None)
    line.go_on(State(line.now().live, table))
    return b"ok\n"


def first_missing(bases, failing):
    """Each transition of a list is one of a service of these databases."""
    for _, name in failing:
        if not any(name in base.services for base in bases):
            raise Refusal("Unknown", name)


def has_failed(answer):
    """Whether an answer says that something was not done."""
    return any(line.split(b" ")[0] in (b"failed", b"blocked", b"untried") for line in answer.split(b"\n"))


def value(members):
    return b"none" if members is None else b"[" + b",".join(sorted(members)) + b"]"


def journal(line):
    return b"at %d of %d\n" % (line.cursor, len(line.states)) + b"".join(one + b"\n" for one in entries(line, 0))


def entries(line, first):
    """The entries of a line of states, numbered from this number on."""
    found = []
    for place, (old, new) in enumerate(zip(line.states, line.states[1:]), first):
        words = [b"%d" % place]
        for name in sorted(old.live ^ new.live):
            words.append((b"+" if name in new.live else b"-") + name)
        for name in sorted(set(old.bundles) | set(new.bundles)):
            one, other = old.bundles.get(name), new.bundles.get(name)
            if one != other:
                words.append(name + b":" + value(one) + b">" + value(other))
        found.append(b" ".join(words))
    return found


def live_line(line):
    return b" ".join([b"live"] + sorted(line.now().live)) + b"\n"


def do(base, line, command, carry_out):
    """The answer to a command, of which the line may alter; a refusal leaves it."""
    if command.word == b"dry":
        now = line.now()
        return told(plan(base, now.bundles, set(now.live), command.ask)) + b"ok\n"
    if command.word in (b"change", b"undo", b"redo"):
        return move(base, line, command, carry_out)
    if command.word in (b"add", b"delete"):
        return edit(base, line, command)
    if command.word == b"live":
        return live_line(line) + b"ok\n"
    if command.word == b"journal":
        return journal(line) + b"ok\n"
    table = line.now().bundles
    lines = [b" ".join([b"bundle", name] + sorted(table[name])) + b"\n" for name in sorted(table)]
    return b"".join(lines) + b"ok\n"
